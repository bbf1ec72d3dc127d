// Sheets for the reader: cut at every length, with surplus, with bytes changed, and random bytes.

use crate::cases::{of_size, want_read, LARGE, SMALL};
use crate::dice::Dice;
use crate::group::Group;
use crate::held;
use crate::sheet::call::ReadCall;
use crate::sheet::{lend, second};

// A good sheet, and lists without a spare place.
fn good(dice: &mut Dice, size: usize) -> ReadCall {
    let register = of_size(dice, size).register;
    let needed = lend::needed(size, register.entries.len());
    ReadCall {
        bytes: second::sheet(&register),
        lists: lend::rubbish(dice, needed),
    }
}

// The longest are cut at a sample of lengths, as they are slow to read.
pub fn lengths(group: &mut Group) {
    for size in SMALL.into_iter().chain(LARGE) {
        let call = good(&mut group.dice(), size);
        let length = call.bytes.len();
        for cut in (0..length).step_by(1 + length / 5_000 * 60) {
            let mut call = call.clone();
            call.bytes.truncate(cut);
            want_read(group, &call, 9, "a cut sheet");
        }
        for surplus in [1, 2, 3, 4_096] {
            let mut call = call.clone();
            call.bytes.resize(length + surplus, 0x80);
            want_read(group, &call, 12, "a sheet with surplus");
        }
    }
}

pub fn changed(group: &mut Group) {
    for size in SMALL.into_iter().chain(LARGE) {
        let mut call = good(&mut group.dice(), size);
        let length = call.bytes.len();
        for place in (0..length).step_by(1 + length / 100) {
            let kept = call.bytes[place];
            for byte in [0x00, 0x7F, 0x80, 0xFF, kept ^ 1, kept ^ 0x80] {
                call.bytes[place] = byte;
                held::read(group, &call);
            }
            call.bytes[place] = kept;
        }
    }
    for reply in [1, 5, 9, 10, 11, 12] {
        group.need(&format!("read {reply}"), 5);
    }
}

// Random bytes seldom get beyond the size, so half of them are few and small.
pub fn random(group: &mut Group) {
    for draw in 0..2_000 {
        let mut dice = group.dice();
        let (most, length) = if draw % 2 == 0 {
            (2, dice.below(12))
        } else {
            (256, dice.below(40))
        };
        let bytes = (0..length).map(|_| dice.below(most) as u8).collect();
        let lengths = [0; 6].map(|_| dice.below(10));
        let lists = lend::rubbish(&mut dice, lengths);
        held::read(group, &ReadCall { bytes, lists });
    }
    for reply in [1, 9, 10, 11, 12] {
        group.need(&format!("read {reply}"), 5);
    }
}
