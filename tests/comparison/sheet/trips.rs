// Random sound registers written to a sheet and read back from it, in lists and bytes with spare
// places; and byte lists that are too short.

use super::held::{same_read, wants_write};
use super::{lend, second};
use crate::calls::spare;
use crate::group::Group;
use crate::register::Register;
use crate::registers;

pub fn group(group: &mut Group) {
    for _ in 0..2_500 {
        let mut dice = group.dice();
        let size = registers::size(&mut dice);
        let register = registers::any(&mut dice, size);
        trip(group, &register);
        every_shortage(group, &register);
        if group.failed() {
            return;
        }
    }
    larger(group);
    group.need("came back", 2_000);
    group.need("came back from over 10,000 bytes", 10);
    group.need("write 0", 2_000);
    group.need("write 8", 50_000);
}

fn larger(group: &mut Group) {
    for round in 0..150 {
        let mut dice = group.dice();
        let (size, most) = match round % 5 {
            0 => (1_000, 12_000),
            1 => (1 + dice.below(1_000), 12_000),
            _ => (1 + dice.below(300), 3_000),
        };
        let full = size * (size + 1) / 2;
        let total = size + dice.below(most.min(full) - size + 1);
        let register = registers::of_total(&mut dice, size, total);
        trip(group, &register);
        if group.failed() {
            return;
        }
    }
}

// There and back, and once with one byte too few.
fn trip(group: &mut Group, register: &Register) {
    let mut dice = group.dice();
    let length = second::sheet(register).len();
    let bytes = length + spare(&mut dice);
    let call = lend::to_write(&mut dice, register, bytes);
    let written = wants_write(group, &call, 0, "a sound register and room");
    let sheet = &written.bytes[..written.count];
    let (size, total) = (register.size, register.entries.len());
    let call = lend::to_read(&mut dice, sheet, size, total);
    let read = same_read(group, &call);
    if (read.reply, read.size) != (0, size) || Register::read(size, &read.lists) != *register {
        let told = call.told();
        group.fail(&format!("the register did not come back\n{told}"));
        return;
    }
    group.count("came back");
    if length > 10_000 {
        group.count("came back from over 10,000 bytes");
    }
    let call = lend::to_write(&mut dice, register, length - 1);
    wants_write(group, &call, 8, "one byte too few");
}

fn every_shortage(group: &mut Group, register: &Register) {
    let length = second::sheet(register).len();
    if length > 100 {
        return;
    }
    let mut dice = group.dice();
    let mut call = lend::to_write(&mut dice, register, length);
    while call.bytes.pop().is_some() {
        wants_write(group, &call, 8, "a byte list too short");
    }
}
