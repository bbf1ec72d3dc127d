// Lists without a spare place, and each of them in turn with a place less or with none at all.

use crate::call::Lists;
use crate::calls::Case;
use crate::cases::{of_size, to_write, want_all, want_no_room, want_read, LARGE, SMALL};
use crate::group::Group;
use crate::register::Register;
use crate::sheet::call::ReadCall;
use crate::sheet::{lend, second};

const ETA: usize = 6;

pub fn group(group: &mut Group) {
    for size in SMALL.into_iter().chain(LARGE) {
        let mut case = of_size(&mut group.dice(), size);
        case.call.lists = case.register.lists();
        case.call.new_rows = vec![];
        want_all(group, &case, [0, 0, 100], "lists without a spare place");
        for list in 0..7 {
            for cut in [1, usize::MAX] {
                lent_short(group, &case, list, cut);
                read_short(group, &case.register, list, cut);
            }
        }
        nothing_at_all(group, case);
    }
}

fn shorten(lists: &mut Lists, list: usize, cut: usize) {
    let list = &mut lists.each()[list];
    list.truncate(list.len().saturating_sub(cut));
}

// The check and the writer have no eta list.
fn lent_short(group: &mut Group, case: &Case, list: usize, cut: usize) {
    let (register, mut call) = (case.register.clone(), case.call.clone());
    shorten(&mut call.lists, list, cut);
    let own = if list == ETA { 0 } else { 2 };
    let case = Case { register, call };
    want_all(group, &case, [own, own, 2], "a short list");
}

// Neither has the reader.
fn read_short(group: &mut Group, register: &Register, list: usize, cut: usize) {
    let needed = lend::needed(register.size, register.entries.len());
    let mut lists = lend::rubbish(&mut group.dice(), needed);
    shorten(&mut lists, list, cut);
    let bytes = second::sheet(register);
    let wanted = if list == ETA { 0 } else { 2 };
    want_read(group, &ReadCall { bytes, lists }, wanted, "a short list");
}

fn nothing_at_all(group: &mut Group, mut case: Case) {
    want_no_room(group, &to_write(&case, 0));
    let lists = lend::rubbish(&mut group.dice(), [0; 6]);
    case.call.lists = lists.clone();
    want_all(group, &case, [2, 2, 2], "no place in any list");
    let bytes = vec![];
    want_read(group, &ReadCall { bytes, lists }, 9, "no place and no byte");
}
