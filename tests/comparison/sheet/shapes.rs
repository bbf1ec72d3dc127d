// Random numbers laid out as a sheet. The shape is right and no register was there before, so that
// orders are mostly unsound and columns often empty.

use super::call::{ReadCall, ReadOutcome, WriteCall};
use super::held::{same_read, wants_write};
use super::lend;
use super::second::{encode, numbers};
use crate::dice::Dice;
use crate::group::Group;
use crate::register::Register;

pub fn group(group: &mut Group) {
    for _ in 0..60_000 {
        one(group);
        if group.failed() {
            return;
        }
    }
    for reply in [0, 5, 11] {
        group.need(&format!("read {reply}"), 2_000);
    }
    for reply in [1, 9, 12] {
        group.need(&format!("read {reply}"), 500);
    }
    group.need("an empty column ends in 5", 2_000);
}

fn one(group: &mut Group) {
    let mut dice = group.dice();
    let size = 1 + dice.below(4).min(dice.below(4));
    let shape = shape(&mut dice, size);
    let mut numbers = numbers(&shape);
    if dice.in_hundred(30) {
        nudge(&mut dice, &mut numbers, size);
    }
    let total = shape.entries.len() + 1;
    let call = lend::to_read(&mut dice, &encode(&numbers), size + 1, total);
    let wanted = same_read(group, &call);
    if wanted.reply == 0 {
        write_again(group, &call, wanted);
    } else if wanted.reply == 5 && has_empty_column(&shape) {
        group.count("an empty column ends in 5");
    }
}

// Any entries, and numbers below the size for an order: each once, or any.
fn shape(dice: &mut Dice, size: usize) -> Register {
    let chances = dice.pick(&[20, 40, 60, 80]);
    let all = (0..size).flat_map(|row| (0..size).map(move |column| (row, column)));
    let entries = all.filter(|_| dice.in_hundred(chances)).collect();
    let once = dice.in_hundred(85);
    let order = |dice: &mut Dice| match once {
        true => dice.shuffled(size),
        false => (0..size).map(|_| dice.below(size)).collect(),
    };
    Register {
        size,
        entries,
        rows: order(dice),
        cols: order(dice),
    }
}

// One number becomes one more, one less or one near the limit. Of counts this shifts all that
// follows.
fn nudge(dice: &mut Dice, numbers: &mut [usize], size: usize) {
    let place = dice.below(numbers.len());
    let number = numbers[place];
    let near = [
        number + 1,
        number.saturating_sub(1),
        size - 1,
        size,
        size + 1,
    ];
    numbers[place] = dice.pick(&near);
}

fn has_empty_column(shape: &Register) -> bool {
    (0..shape.size).any(|column| shape.rows_of(column).is_empty())
}

// A sheet that is accepted is the one that is written of what was read.
fn write_again(group: &mut Group, read: &ReadCall, outcome: ReadOutcome) {
    let call = WriteCall {
        size: outcome.size,
        lists: outcome.lists,
        bytes: group.dice().bytes(read.bytes.len()),
    };
    let written = wants_write(group, &call, 0, "what was read");
    if written.bytes != read.bytes {
        let (call, told) = (call.told(), read.told());
        group.fail(&format!(
            "another sheet is written\n{call}than was read\n{told}"
        ));
    }
}
