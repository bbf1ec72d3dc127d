// Sizes and columns that the lists do not have, from 0 to the greatest number there is.

use crate::calls::Case;
use crate::cases::{call_all, of_size, want_all, LARGE, SMALL};
use crate::group::Group;

pub fn group(group: &mut Group) {
    for held in SMALL.into_iter().chain(LARGE) {
        let mut case = of_size(&mut group.dice(), held);
        case.call.lists = case.register.lists();
        for size in [
            0,
            1,
            2,
            6,
            7,
            8,
            300,
            999,
            1_000,
            1_001,
            (1 << 16) + held,
            usize::MAX,
        ] {
            case.call.size = size;
            told_size(group, &case);
        }
        case.call.size = held;
        for column in [held, 1_000, 1_001, (1 << 16), usize::MAX] {
            case.call.column = column;
            want_all(group, &case, [0, 0, 6], "a column that is not there");
        }
    }
}

// The lists are too short for every greater size.
fn told_size(group: &mut Group, case: &Case) {
    let size = case.call.size;
    if size == 0 || size > 1_000 {
        want_all(group, case, [1, 1, 1], "a size out of limits");
    } else if size > case.register.size {
        want_all(group, case, [2, 2, 2], "a size that the lists do not have");
    } else {
        call_all(group, case);
    }
}
