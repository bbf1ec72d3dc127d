// What is lent to the writer and to the reader: lists that hold a register, and lists and bytes
// that hold rubbish, with or without spare places.

use super::call::{ReadCall, WriteCall};
use crate::call::Lists;
use crate::calls::spare;
use crate::dice::Dice;
use crate::register::Register;

// The register in lists, and so many bytes of rubbish.
pub fn to_write(dice: &mut Dice, register: &Register, length: usize) -> WriteCall {
    let mut lists = register.lists();
    lists.eta.clear();
    for list in lists.each() {
        let more = spare(dice);
        list.extend(dice.rubbish(more));
    }
    WriteCall {
        size: register.size,
        lists,
        bytes: dice.bytes(length),
    }
}

// The bytes, and lists that are long enough for a register of the size and the total.
pub fn to_read(dice: &mut Dice, bytes: &[u8], size: usize, total: usize) -> ReadCall {
    let lengths = needed(size, total).map(|length| length + spare(dice));
    ReadCall {
        bytes: bytes.to_vec(),
        lists: rubbish(dice, lengths),
    }
}

// The lengths of the six lists without a spare place.
pub fn needed(size: usize, total: usize) -> [usize; 6] {
    [size + 1, total, size + 1, total, size, size]
}

pub fn rubbish(dice: &mut Dice, lengths: [usize; 6]) -> Lists {
    let [a, b, c, d, e, f] = lengths.map(|length| dice.rubbish(length));
    Lists {
        col_starts: a,
        col_rows: b,
        row_starts: c,
        row_cols: d,
        order_rows: e,
        order_cols: f,
        eta: Vec::new(),
    }
}
