// Sheets of full size: 1,000 with few entries and with 12,000, and a nearly full triangle; written,
// read, cut and changed at a sample of places. And totals and sizes just over the limits.

use super::call::ReadCall;
use super::held::{same_read, wants_read, wants_write};
use super::{lend, second};
use crate::dice::Dice;
use crate::group::Group;
use crate::register::Register;
use crate::registers;

// No sheet is longer: two bytes for each of its numbers. A list of that length needs no measuring.
const LONGEST: usize = 2 * (1 + 3 * 1_000 + 12_000);

pub fn group(group: &mut Group) {
    for (size, total, write, read) in [
        (1_000, 1_000, 0, 0),
        (1_000, 5_000, 0, 0),
        (1_000, 11_999, 0, 0),
        (1_000, 12_000, 0, 0),
        (155, 12_000, 0, 0),
        (1_000, 12_001, 3, 11),
        (155, 12_001, 3, 11),
        (1_001, 5_000, 1, 1),
    ] {
        let mut dice = group.dice();
        let register = registers::of_total(&mut dice, size, total);
        let valid = both_ways(group, &register, write, read);
        if read == 0 {
            exact_or_short(group, &register);
            sample(group, &valid);
        }
        if group.failed() {
            return;
        }
    }
    for reply in [2, 5, 9, 10, 11] {
        group.need(&format!("read {reply}"), 30);
    }
}

fn both_ways(group: &mut Group, register: &Register, write: usize, read: usize) -> ReadCall {
    let mut dice = group.dice();
    let sheet = second::sheet(register);
    for (length, room) in [
        (sheet.len(), true),
        (sheet.len() + 50, true),
        (LONGEST - 1, true),
        (LONGEST, true),
        (sheet.len() - 1, false),
        (0, false),
    ] {
        let call = lend::to_write(&mut dice, register, length);
        let reply = if room || write != 0 { write } else { 8 };
        wants_write(group, &call, reply, "a register of full size");
    }
    let (size, total) = (register.size, register.entries.len());
    let call = lend::to_read(&mut dice, &sheet, size, total);
    wants_read(group, &call, read, "a sheet of full size");
    call
}

// Lists without a spare place, and each of them in turn with one place too few.
fn exact_or_short(group: &mut Group, register: &Register) {
    let mut dice = group.dice();
    let exact = lend::needed(register.size, register.entries.len());
    for short in [None, Some(0), Some(1), Some(2), Some(3), Some(4), Some(5)] {
        let mut lengths = exact;
        if let Some(list) = short {
            lengths[list] -= 1;
        }
        let call = ReadCall {
            bytes: second::sheet(register),
            lists: lend::rubbish(&mut dice, lengths),
        };
        let reply = if short.is_some() { 2 } else { 0 };
        wants_read(group, &call, reply, "lists of full size, exact or short");
    }
}

fn sample(group: &mut Group, valid: &ReadCall) {
    let last = valid.bytes.len() - 1;
    let mut dice = group.dice();
    let mut places: Vec<usize> = (0..120).map(|_| dice.below(last)).collect();
    places.extend([0, 1, 2, last - 1, last]);
    for place in places {
        let mut call = valid.clone();
        call.bytes[place] = other(&mut dice, valid.bytes[place]);
        same_read(group, &call);
        call.bytes.truncate(place);
        wants_read(group, &call, 9, "a sheet of full size that was cut");
    }
    let mut call = valid.clone();
    call.bytes.push(0);
    wants_read(group, &call, 12, "a sheet of full size and one byte");
}

fn other(dice: &mut Dice, byte: u8) -> u8 {
    match dice.below(3) {
        0 => byte ^ 1 << dice.below(8),
        1 => byte ^ 0x80,
        _ => byte.wrapping_add(1 + dice.below(255) as u8),
    }
}
