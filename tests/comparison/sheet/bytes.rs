// Valid sheets with their bytes changed: every byte to several others, a cut at every length, and
// bytes added; and sheets with several changes at once.

use super::call::ReadCall;
use super::held::same_read;
use super::{lend, second};
use crate::dice::Dice;
use crate::group::Group;
use crate::register::Register;
use crate::registers;

pub fn every(group: &mut Group) {
    for _ in 0..400 {
        let mut dice = group.dice();
        let size = 1 + dice.below(7);
        let register = registers::any(&mut dice, size);
        let call = valid(&mut dice, &register);
        changed(group, &call, |byte| changes(byte));
        cut(group, &call);
        surplus(group, &call);
        if group.failed() {
            return;
        }
    }
    // From size 128 on numbers have two groups.
    for size in [100, 126, 127, 128, 129, 130, 150, 200, 300] {
        let mut dice = group.dice();
        let register = registers::of_total(&mut dice, size, 2 * size);
        let call = valid(&mut dice, &register);
        changed(group, &call, |byte| vec![dice.pick(&changes(byte))]);
        cut(group, &call);
        surplus(group, &call);
        if group.failed() {
            return;
        }
    }
    need_replies(group, 200);
}

// Replies 0 and 1 are rarer: few changes leave a sheet good, and few bytes are the size.
fn need_replies(group: &mut Group, rarer: usize) {
    for reply in [5, 9, 10, 11, 12] {
        group.need(&format!("read {reply}"), 2_000);
    }
    group.need("read 0", rarer);
    group.need("read 1", rarer);
}

// Room for somewhat more than the register, as a change may make it larger.
fn valid(dice: &mut Dice, register: &Register) -> ReadCall {
    let (size, total) = (register.size, register.entries.len());
    lend::to_read(dice, &second::sheet(register), size + 3, total + 6)
}

// Every bit, and the least and the greatest group that ends a number or goes on.
fn changes(byte: u8) -> Vec<u8> {
    let bits = (0..8).map(|bit| byte ^ 1 << bit);
    let mut all: Vec<u8> = bits.chain([0x00, 0x7F, 0x80, 0xFF]).collect();
    all.sort();
    all.dedup();
    all.retain(|&other| other != byte);
    all
}

fn changed(group: &mut Group, valid: &ReadCall, mut to: impl FnMut(u8) -> Vec<u8>) {
    let mut call = valid.clone();
    for place in 0..valid.bytes.len() {
        for byte in to(valid.bytes[place]) {
            call.bytes[place] = byte;
            same_read(group, &call);
        }
        call.bytes[place] = valid.bytes[place];
    }
}

fn cut(group: &mut Group, valid: &ReadCall) {
    let mut call = valid.clone();
    while call.bytes.pop().is_some() {
        same_read(group, &call);
    }
}

fn surplus(group: &mut Group, valid: &ReadCall) {
    for length in 1..=3 {
        for byte in [0x00, 0x01, 0x7F, 0x80, 0x81, 0xFF] {
            let mut call = valid.clone();
            call.bytes.resize(valid.bytes.len() + length, byte);
            same_read(group, &call);
        }
    }
}

pub fn several(group: &mut Group) {
    for _ in 0..100_000 {
        let mut dice = group.dice();
        let size = 1 + dice.below(5);
        let register = registers::any(&mut dice, size);
        let mut call = valid(&mut dice, &register);
        for _ in 0..2 + dice.below(3) {
            change(&mut dice, &mut call.bytes);
        }
        same_read(group, &call);
        if group.failed() {
            return;
        }
    }
    need_replies(group, 1_000);
}

fn change(dice: &mut Dice, bytes: &mut Vec<u8>) {
    let place = dice.below(bytes.len() + 1);
    let byte = dice.pick(&[0x00, 0x00, 0x01, 0x01, 0x02, 0x03, 0x7F, 0x80, 0x81, 0xFF]);
    match dice.below(8) {
        0 => bytes.insert(place, byte),
        1 => bytes.push(byte),
        2 if place < bytes.len() => _ = bytes.remove(place),
        3 if dice.coin() => bytes.truncate(place),
        _ if place < bytes.len() => bytes[place] = byte,
        _ => {}
    }
}
