// Bytes and lists with more places than 16 bits can count, and by so many more that a length cut to
// 16 bits would decide otherwise.

use super::call::ReadCall;
use super::held::{wants_read, wants_write};
use super::{lend, second};
use crate::calls;
use crate::group::Group;
use crate::register::Register;

const ROUND: usize = 1 << 16;

pub fn group(group: &mut Group) {
    for _ in 0..20 {
        let register = calls::any(&mut group.dice()).register;
        long_bytes(group, &register);
        long_lists(group, &register);
        if group.failed() {
            return;
        }
    }
}

fn long_bytes(group: &mut Group, register: &Register) {
    let mut dice = group.dice();
    let sheet = second::sheet(register);
    let call = lend::to_write(&mut dice, register, ROUND + sheet.len() - 1);
    wants_write(group, &call, 0, "a byte list past 65,535");
    let call = lend::to_write(&mut dice, register, ROUND);
    wants_write(group, &call, 0, "a byte list of 65,536");
    let surplus = vec![dice.pick(&[0x00, 0x80]); ROUND];
    let bytes = [sheet, surplus].concat();
    let call = lend::to_read(&mut dice, &bytes, register.size, register.entries.len());
    wants_read(group, &call, 12, "a surplus of 65,536 bytes");
}

fn long_lists(group: &mut Group, register: &Register) {
    let mut dice = group.dice();
    for length in [ROUND, ROUND + register.size - 1] {
        let call = ReadCall {
            bytes: second::sheet(register),
            lists: lend::rubbish(&mut dice, [length; 6]),
        };
        wants_read(group, &call, 0, "lists past 65,535");
    }
    let mut call = lend::to_write(&mut dice, register, second::sheet(register).len());
    for list in call.lists.each() {
        let missing = ROUND.saturating_sub(list.len());
        list.extend(dice.rubbish(missing));
    }
    wants_write(group, &call, 0, "a register in lists past 65,535");
}
