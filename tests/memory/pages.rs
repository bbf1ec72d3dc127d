// Memory between two guards: pages that may not be touched, so that the program breaks off where
// they are. It rests on Linux and its pages of 4,096 bytes.

use std::ffi::c_void;

extern "C" {
    fn mmap(
        at: *mut c_void,
        length: usize,
        access: i32,
        flags: i32,
        file: i32,
        offset: i64,
    ) -> *mut c_void;
    fn mprotect(at: *mut c_void, length: usize, access: i32) -> i32;
    fn munmap(at: *mut c_void, length: usize) -> i32;
}

const NO_ACCESS: i32 = 0;
const READ_AND_WRITE: i32 = 3;
const PRIVATE_AND_NO_FILE: i32 = 0x22;

const PAGE: usize = 4_096;
// The greatest 16-bit number, taken as a place of 16 bits before or past a list, still falls on it.
const GUARD: usize = 1 << 18;

pub struct Pages {
    begin: *mut u8,
    room: usize,
}

impl Pages {
    // Room for so many bytes, in whole pages; none where there is no byte.
    pub fn new(bytes: usize) -> Pages {
        let room = bytes.next_multiple_of(PAGE);
        unsafe {
            let none = std::ptr::null_mut();
            let guard = mmap(
                none,
                room + 2 * GUARD,
                NO_ACCESS,
                PRIVATE_AND_NO_FILE,
                -1,
                0,
            );
            assert!(guard as isize != -1, "no memory is left");
            let begin = guard.add(GUARD);
            let opened = mprotect(begin, room, READ_AND_WRITE);
            assert!(opened == 0, "the pages cannot be opened");
            Pages {
                begin: begin.cast(),
                room,
            }
        }
    }

    // Where so many bytes stand that begin right after the first guard.
    pub fn after_guard(&self) -> *mut u8 {
        self.begin
    }

    // Where so many bytes stand that end right before the second.
    pub fn before_guard(&self, bytes: usize) -> *mut u8 {
        self.begin.wrapping_add(self.room - bytes)
    }
}

impl Drop for Pages {
    fn drop(&mut self) {
        let guard = self.begin.wrapping_sub(GUARD);
        unsafe { munmap(guard.cast(), self.room + 2 * GUARD) };
    }
}
