// New columns of every kind that a replacement may meet, each in strictly rising order.

use crate::dice::Dice;
use crate::register::{narrow, Register};
use crate::second::reach;

pub const KINDS: [&str; 13] = [
    "none",
    "the old rows",
    "reached rows only",
    "unreached rows only",
    "one reached row and unreached ones",
    "with the paired row",
    "without the paired row",
    "all rows",
    "all rows but one",
    "one row",
    "the paired row alone",
    "rows of no later place",
    "the end of a path alone",
];

pub fn any(dice: &mut Dice, register: &Register, column: usize) -> Vec<u16> {
    let kind = dice.pick(&KINDS);
    of_kind(kind, dice, register, column)
}

pub fn of_kind(kind: &str, dice: &mut Dice, register: &Register, column: usize) -> Vec<u16> {
    let all: Vec<usize> = (0..register.size).collect();
    let chances = dice.pick(&[5, 20, 40, 70]);
    let paired = register.paired_row(column);
    let mut rows = match kind {
        "none" => Vec::new(),
        "the old rows" => register.rows_of(column),
        "with the paired row" => with(dice.some_of(&all, chances), paired),
        "without the paired row" => without(dice.some_of(&all, chances), paired),
        "all rows" => all,
        "all rows but one" => without(all, dice.below(register.size)),
        "one row" => vec![dice.below(register.size)],
        "the paired row alone" => vec![paired],
        "rows of no later place" => {
            let place = register.col_places()[column];
            dice.some_of(&register.rows[..=place], chances)
        }
        _ => by_reach(kind, dice, register, column, chances),
    };
    rows.sort();
    narrow(&rows)
}

fn by_reach(
    kind: &str,
    dice: &mut Dice,
    register: &Register,
    column: usize,
    chances: usize,
) -> Vec<usize> {
    let columns = reach(register, column);
    let reached: Vec<usize> = columns.iter().map(|&to| register.paired_row(to)).collect();
    let all = 0..register.size;
    let unreached: Vec<usize> = all.filter(|row| !reached.contains(row)).collect();
    let paired = register.paired_row(column);
    match kind {
        "reached rows only" => dice.some_of(&reached, chances),
        "unreached rows only" => dice.some_of(&unreached, chances),
        "one reached row and unreached ones" => {
            let row = dice.pick(&reached);
            with(dice.some_of(&unreached, chances), row)
        }
        "the end of a path alone" => {
            let ends = without(reached, paired);
            ends.last().map(|_| dice.pick(&ends)).into_iter().collect()
        }
        other => panic!("no new column is called '{other}'"),
    }
}

fn with(mut rows: Vec<usize>, row: usize) -> Vec<usize> {
    rows.retain(|&other| other != row);
    rows.push(row);
    rows
}

fn without(mut rows: Vec<usize>, row: usize) -> Vec<usize> {
    rows.retain(|&other| other != row);
    rows
}
