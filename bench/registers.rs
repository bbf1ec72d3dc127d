// The four registers that are measured, of the greatest size: random and banded, thin and full. A
// pattern is drawn by places and then numbered at random, so that rows and columns are shuffled.

use crate::dice::Dice;
use crate::lists::Lists;
use crate::replies::{MAX_SIZE, MAX_TOTAL};

pub struct Register {
    pub name: String,
    pub lists: Lists,
}

// The name, the total, and how far before its own place a column may have rows. The full ones leave
// room for new columns.
const KINDS: [(&str, usize, usize); 4] = [
    ("random", 3_000, MAX_SIZE),
    ("banded", 3_000, 12),
    ("random", 11_900, MAX_SIZE),
    ("banded", 11_900, 24),
];

// Places at the end of each list that no register uses.
const SPARE: usize = 8;

pub fn all(dice: &mut Dice) -> Vec<Register> {
    let mut registers = Vec::new();
    for (name, total, band) in KINDS {
        let pattern = pattern(dice, total, band);
        registers.push(Register {
            name: format!("{name} {total}"),
            lists: lists(dice, &pattern),
        });
    }
    registers
}

// For the column of each place the places of its rows, its own among them.
fn pattern(dice: &mut Dice, total: usize, band: usize) -> Vec<Vec<usize>> {
    let mut pattern: Vec<Vec<usize>> = (0..MAX_SIZE).map(|place| vec![place]).collect();
    let mut left = total - MAX_SIZE;
    while 0 < left {
        let (one, other) = (dice.below(MAX_SIZE), dice.below(MAX_SIZE));
        let (row, col) = (one.min(other), one.max(other));
        if col - row <= band && !pattern[col].contains(&row) {
            pattern[col].push(row);
            left -= 1;
        }
    }
    pattern
}

fn lists(dice: &mut Dice, pattern: &[Vec<usize>]) -> Lists {
    let (order_rows, order_cols) = (dice.shuffled(MAX_SIZE), dice.shuffled(MAX_SIZE));
    let mut by_cols = vec![Vec::new(); MAX_SIZE];
    let mut by_rows = vec![Vec::new(); MAX_SIZE];
    for (&col, places) in order_cols.iter().zip(pattern) {
        for &place in places {
            by_cols[usize::from(col)].push(order_rows[place]);
            by_rows[usize::from(order_rows[place])].push(col);
        }
    }
    let (col_starts, col_rows) = listing(by_cols);
    let (row_starts, row_cols) = listing(by_rows);
    Lists {
        col_starts: spared(col_starts, MAX_SIZE + 1),
        col_rows: spared(col_rows, MAX_TOTAL),
        row_starts: spared(row_starts, MAX_SIZE + 1),
        row_cols: spared(row_cols, MAX_TOTAL),
        order_rows: spared(order_rows, MAX_SIZE),
        order_cols: spared(order_cols, MAX_SIZE),
        eta: spared(Vec::new(), MAX_SIZE),
    }
}

fn listing(parts: Vec<Vec<u16>>) -> (Vec<u16>, Vec<u16>) {
    let (mut starts, mut entries) = (vec![0], Vec::new());
    for mut part in parts {
        part.sort();
        entries.append(&mut part);
        starts.push(entries.len() as u16);
    }
    (starts, entries)
}

// What the register does not use has numbers that could pass for rows or columns, no two alike side
// by side, so that a place that is not kept shows.
fn spared(mut list: Vec<u16>, room: usize) -> Vec<u16> {
    list.extend((list.len()..room + SPARE).map(|place| (place % 997) as u16));
    list
}
