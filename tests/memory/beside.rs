// A place beside a list is read on purpose, to see that this is noticed in every run.

use crate::lent::{in_every_way, Lent};
use std::hint::black_box;

// False where there is no such side. Where it comes back with true nothing was noticed yet.
pub fn read(side: &str) -> bool {
    let list = [1_u16, 2, 3];
    let place = match side {
        "before" => -1,
        "past" => list.len() as isize,
        _ => return false,
    };
    in_every_way(|| {
        let mut lent = Lent::new(&list);
        black_box(unsafe { lent.at().wrapping_offset(place).read_volatile() })
    });
    true
}
