// One number changed: starts that fall or point past the lists, rows and columns that are too large
// or do not rise, an order that is none. Every number of small registers, and some of large ones.

use crate::calls::Case;
use crate::cases::{call_all, of_kind, of_size, LARGE, SMALL};
use crate::group::Group;
use crate::registers;

pub fn every(group: &mut Group) {
    for size in SMALL {
        for kind in ["all rows", "one row", "the end of a path alone"] {
            let mut dice = group.dice();
            let full = registers::of_total(&mut dice, size, size * (size + 1) / 2);
            let mut case = of_kind(&mut dice, full, kind);
            for list in 0..8 {
                for place in 0..list_of(&mut case, list).len() {
                    change(group, &mut case, list, place);
                }
            }
        }
    }
    need_replies(group);
}

pub fn some(group: &mut Group) {
    for size in LARGE {
        for _ in 0..2 {
            let mut dice = group.dice();
            let mut case = of_size(&mut dice, size);
            for list in 0..8 {
                let length = list_of(&mut case, list).len();
                if length > 0 {
                    change(group, &mut case, list, dice.below(length));
                }
            }
        }
    }
}

fn need_replies(group: &mut Group) {
    for reply in [2, 3, 4, 5, 7, 100, 101, 102] {
        group.need(&format!("replace {reply}"), 20);
    }
}

// The seven lists and the new rows.
fn list_of(case: &mut Case, list: usize) -> &mut Vec<u16> {
    let [a, b, c, d, e, f, eta] = case.call.lists.each();
    [a, b, c, d, e, f, eta, &mut case.call.new_rows]
        .into_iter()
        .nth(list)
        .expect("there are eight")
}

// The number is put back afterwards.
fn change(group: &mut Group, case: &mut Case, list: usize, place: usize) {
    let kept = list_of(case, list)[place];
    let size = case.register.size as u16;
    for number in [0, kept.wrapping_sub(1), kept.wrapping_add(1), size, 0xFFFF] {
        list_of(case, list)[place] = number;
        call_all(group, case);
    }
    list_of(case, list)[place] = kept;
}
