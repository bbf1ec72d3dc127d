// A list as it is lent to the library: with edges on both sides that nobody may write to, because
// a lent list alone would not show it.

pub trait Edged: Copy + PartialEq + 'static {
    const EDGE: [Self; 4];
}

impl Edged for u16 {
    const EDGE: [u16; 4] = [0xA5C3, 0x5A3C, 0xC3A5, 0x3C5A];
}

// Each has its high bit set, so a reader that goes on past the end of a sheet meets a number of
// too many groups there.
impl Edged for u8 {
    const EDGE: [u8; 4] = [0xA5, 0xDA, 0xC3, 0xBC];
}

pub struct Lent<T: Edged> {
    places: Vec<T>,
    pub len: usize,
}

impl<T: Edged> Lent<T> {
    pub fn new(list: &[T]) -> Lent<T> {
        Lent {
            places: [&T::EDGE, list, &T::EDGE].concat(),
            len: list.len(),
        }
    }

    pub fn at(&mut self) -> *mut T {
        self.places[T::EDGE.len()..].as_mut_ptr()
    }

    pub fn list(&self) -> Vec<T> {
        self.places[T::EDGE.len()..][..self.len].to_vec()
    }

    pub fn edges_kept(&self) -> bool {
        self.places.starts_with(&T::EDGE) && self.places.ends_with(&T::EDGE)
    }
}
