// One number of a valid sheet made wrong on purpose: in a longer form, or exchanged for another.
// What follows it is as it was or wrong as well, and must not be told first.

use super::call::ReadCall;
use super::held::{same_read, wants_read};
use super::lend;
use super::numbers::groups;
use super::second::{encode, numbers};
use crate::dice::Dice;
use crate::group::Group;
use crate::register::Register;
use crate::registers;

pub fn group(group: &mut Group) {
    for _ in 0..200 {
        let mut dice = group.dice();
        let size = 1 + dice.below(6);
        let register = registers::any(&mut dice, size);
        for place in 0..numbers(&register).len() {
            longer(group, &register, place);
            others(group, &register, place, usize::MAX);
        }
        if group.failed() {
            return;
        }
    }
    for size in [127, 128, 129, 200, 300] {
        let mut dice = group.dice();
        let register = registers::of_total(&mut dice, size, 2 * size);
        for place in 0..numbers(&register).len() {
            longer(group, &register, place);
            others(group, &register, place, 2);
        }
        if group.failed() {
            return;
        }
    }
    for reply in [1, 5, 9, 10, 11] {
        group.need(&format!("read {reply}"), 2_000);
    }
    group.need("read 12", 1_000);
    group.need("read 0", 1_000);
}

// The number in every form of more groups than it needs, to four.
fn longer(group: &mut Group, register: &Register, place: usize) {
    let number = numbers(register)[place];
    for length in groups(number).len() + 1..=4 {
        let mut dice = group.dice();
        let call = with(&mut dice, register, place, &stretched(number, length));
        wants_read(group, &call, 10, "a number in too many groups");
    }
}

fn stretched(number: usize, length: usize) -> Vec<u8> {
    let mut form = groups(number);
    *form.last_mut().expect("a number has a group") += 128;
    form.resize(length, 128);
    form[length - 1] -= 128;
    form
}

// At most so many numbers are taken, as a large sheet has many places.
fn others(group: &mut Group, register: &Register, place: usize, most: usize) {
    let mut dice = group.dice();
    let mut all = misfits(&mut dice, numbers(register)[place], register.size);
    while all.len() > most {
        all.swap_remove(dice.below(all.len()));
    }
    for number in all {
        let call = with(&mut dice, register, place, &groups(number));
        same_read(group, &call);
    }
}

// Numbers about the limits, and such as would be good ones if they were cut to 16 bits or if a sum
// went round there.
fn misfits(dice: &mut Dice, number: usize, size: usize) -> Vec<usize> {
    let round = 1 << 16;
    let mut all = vec![number + 1, number.saturating_sub(1), 0, 127, 128];
    all.extend([size - 1, size, size + 1, 999, 1_000, 1_001]);
    all.extend([12_000, 12_001, 16_383, 16_384, round - 1, round]);
    all.extend([round + number, 2 * round + number, 31 * round + number]);
    all.extend([round + dice.below(size), round - 1 - dice.below(size + 1)]);
    all.extend([dice.below(1 << 21), (1 << 21) - 1, 1 << 21]);
    all
}

// The sheet with other bytes for the number of one place.
fn with(dice: &mut Dice, register: &Register, place: usize, form: &[u8]) -> ReadCall {
    let numbers = numbers(register);
    let head = [&encode(&numbers[..place]), form].concat();
    let rest = encode(&numbers[place + 1..]);
    let bytes = match dice.below(8) {
        0 => head,
        1 => [head, vec![0x80, 0x00]].concat(),
        2 => [head, vec![0xFF, 0xFF, 0x7F]].concat(),
        3 => [head, rest, vec![0x00]].concat(),
        _ => [head, rest].concat(),
    };
    lend::to_read(dice, &bytes, register.size + 1, register.entries.len() + 2)
}
