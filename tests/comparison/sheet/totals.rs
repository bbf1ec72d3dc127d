// Random numbers laid out as a sheet of some 12,000 entries, with empty columns among full ones. A
// total over the limit has to be told where it is reached, before what is wrong later.

use super::call::ReadCall;
use super::held::{same_read, wants_read};
use super::lend;
use super::numbers::groups;
use super::second::{encode, numbers};
use crate::call::TOTAL_LIMIT;
use crate::dice::Dice;
use crate::group::Group;
use crate::register::{Entries, Register};
use std::ops::Range;

pub fn group(group: &mut Group) {
    for round in 0..600 {
        let mut dice = group.dice();
        // From size 110 on so many entries have room.
        let size = match round % 4 {
            0 => 111 + dice.below(890),
            _ => 111 + dice.below(30),
        };
        let total = TOTAL_LIMIT - 3 + dice.below(7);
        let shape = of_total(&mut dice, size, total);
        if dice.coin() {
            whole(group, &shape);
        } else {
            let bytes = spoilt(&mut dice, &shape);
            let call = lent(&mut dice, &shape, &bytes);
            same_read(group, &call);
        }
        if group.failed() {
            return;
        }
    }
    for total in [11_999, 12_000, 12_001, 12_002] {
        group.need(&format!("whole with {total}"), 10);
    }
    for reply in [5, 9, 10, 11] {
        group.need(&format!("read {reply}"), 20);
    }
}

// All columns with rows but one have equally many, and more than two: that is no triangle.
fn whole(group: &mut Group, shape: &Register) {
    let mut dice = group.dice();
    let total = shape.entries.len();
    let call = lent(&mut dice, shape, &encode(&numbers(shape)));
    let reply = if total > TOTAL_LIMIT { 11 } else { 5 };
    wants_read(group, &call, reply, &format!("a total of {total}"));
    group.count(&format!("whole with {total}"));
}

fn lent(dice: &mut Dice, shape: &Register, bytes: &[u8]) -> ReadCall {
    lend::to_read(dice, bytes, shape.size, shape.entries.len() + 1)
}

// One number is missing with all that follows, or is of a wrong form, or another one. Where the
// total is over the limit it is mostly a row of the column that took it there.
fn spoilt(dice: &mut Dice, shape: &Register) -> Vec<u8> {
    let numbers = numbers(shape);
    let place = match rows_over(&numbers) {
        Some(rows) if dice.in_hundred(70) => rows.start + dice.below(rows.len()),
        _ => dice.below(numbers.len()),
    };
    let number = numbers[place];
    let mut head = encode(&numbers[..place]);
    match dice.below(6) {
        0 | 1 => return head,
        2 => head.extend([0x80, 0x00]),
        3 => head.extend([0x80, 0x80, 0x80]),
        4 => head.extend(groups(number + 1)),
        _ => head.extend(groups(shape.size)),
    }
    [head, encode(&numbers[place + 1..])].concat()
}

// The places of the rows whose count takes the total over the limit.
fn rows_over(numbers: &[usize]) -> Option<Range<usize>> {
    let (mut place, mut total) = (1, 0);
    for _ in 0..numbers[0] {
        let rows = place + 1..place + 1 + numbers[place];
        total += rows.len();
        if total > TOTAL_LIMIT {
            return Some(rows);
        }
        place = rows.end;
    }
    None
}

// No column has more than some number of rows drawn before; all have as many until none are left,
// and then come the empty ones.
fn of_total(dice: &mut Dice, size: usize, total: usize) -> Register {
    let least = total / size + 1;
    let most = least + dice.below(size - least + 1);
    let mut left = total;
    let mut entries = Entries::new();
    for column in dice.shuffled(size) {
        let rows = dice.shuffled(size);
        let count = left.min(most);
        left -= count;
        entries.extend(rows[..count].iter().map(|&row| (row, column)));
    }
    Register {
        size,
        entries,
        rows: dice.shuffled(size),
        cols: dice.shuffled(size),
    }
}
