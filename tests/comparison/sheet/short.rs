// Good sheets, unsound ones, ones with surplus and cut ones, each read into lists of which every
// selection is too short and the others are long enough.

use super::call::ReadCall;
use super::held::wants_read;
use super::{lend, second, unsound};
use crate::calls;
use crate::dice::Dice;
use crate::group::Group;
use crate::register::Register;

pub fn group(group: &mut Group) {
    for _ in 0..250 {
        let mut dice = group.dice();
        let sound = calls::any(&mut dice).register;
        let unsound = unsound::any(&mut dice);
        for selection in 0..64 {
            short_or_not(group, &sound, selection, 0);
            short_or_not(group, &unsound, selection, 5);
        }
        if group.failed() {
            return;
        }
    }
    for (reply, least) in [(0, 200), (5, 200), (2, 10_000), (9, 10_000), (12, 10_000)] {
        group.need(&format!("read {reply}"), least);
    }
    group.need("no spare place, reply 0", 50);
    group.need("no spare place, reply 5", 50);
}

// The reply is the one to be given where no list is short.
fn short_or_not(group: &mut Group, register: &Register, selection: usize, reply: usize) {
    let mut dice = group.dice();
    let needed = lend::needed(register.size, register.entries.len());
    let lengths = lengths(&mut dice, needed, selection);
    let mut call = ReadCall {
        bytes: second::sheet(register),
        lists: lend::rubbish(&mut dice, lengths),
    };
    let sheet = call.bytes.len();
    if lengths == needed {
        group.count(&format!("no spare place, reply {reply}"));
    }
    let short = (0..6).any(|list| lengths[list] < needed[list]);
    let reply = if short { 2 } else { reply };
    wants_read(group, &call, reply, "lists that are short or not");
    call.bytes.push(dice.pick(&[0x00, 0x01, 0x80, 0xFF]));
    wants_read(group, &call, 12, "a surplus before short lists");
    call.bytes.truncate(dice.below(sheet));
    wants_read(group, &call, 9, "a cut before short lists");
}

// The lists of the selection lack a place or more; the others have what is needed, half the time
// with spare places. A list that needs no place cannot be short.
fn lengths(dice: &mut Dice, needed: [usize; 6], selection: usize) -> [usize; 6] {
    let exact = dice.coin();
    let mut lengths = needed;
    for (list, length) in lengths.iter_mut().enumerate() {
        if selection >> list & 1 == 1 {
            *length = match dice.in_hundred(70) {
                true => length.saturating_sub(1),
                false => dice.below((*length).max(1)),
            };
        } else if !exact {
            *length += calls::spare(dice);
        }
    }
    lengths
}
