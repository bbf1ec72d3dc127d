// Memory of the C library's heap, to the exact byte, which valgrind watches. A block without a byte
// has an address too, as a list without a place must.

use std::ffi::c_void;

extern "C" {
    fn malloc(bytes: usize) -> *mut c_void;
    fn free(at: *mut c_void);
}

pub struct Block(*mut c_void);

impl Block {
    pub fn new(bytes: usize) -> Block {
        let at = unsafe { malloc(bytes) };
        assert!(!at.is_null(), "no memory is left");
        Block(at)
    }

    pub fn at(&self) -> *mut u8 {
        self.0.cast()
    }
}

impl Drop for Block {
    fn drop(&mut self) {
        unsafe { free(self.0) };
    }
}
