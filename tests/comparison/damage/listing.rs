// Reply 3: the starts, the numbers or the total of one of the two listings are malformed.

use super::{damage, put, too_large, Damage};
use crate::calls::Case;
use crate::dice::Dice;
use crate::register::{by_column, by_row};

pub const ALL: &[Damage] = &[
    damage("first start not 0", |case, dice| {
        let number = 1 + dice.below(3);
        put(side(case, dice).starts, 0, number)
    }),
    damage("start over the next", start_over_next),
    damage("last start too low", last_start_low),
    damage("middle start past its list", start_past_list),
    damage("number too large at a line's end", |case, dice| {
        number_too_large(case, dice, true)
    }),
    damage("number too large anywhere", |case, dice| {
        number_too_large(case, dice, false)
    }),
    damage("equal neighbours", |case, dice| {
        neighbours(case, dice, true)
    }),
    damage("falling neighbours", |case, dice| {
        neighbours(case, dice, false)
    }),
    damage("total over 12,000", total_over),
];

struct Side<'a> {
    size: usize,
    lines: Vec<Vec<usize>>,
    starts: &'a mut Vec<u16>,
    numbers: &'a mut Vec<u16>,
}

// One of the two listings, with the lines that it has when undamaged.
fn side<'a>(case: &'a mut Case, dice: &mut Dice) -> Side<'a> {
    let size = case.register.size;
    let lists = &mut case.call.lists;
    if dice.coin() {
        let lines = by_column(size, &case.register.entries);
        Side {
            size,
            lines,
            starts: &mut lists.col_starts,
            numbers: &mut lists.col_rows,
        }
    } else {
        let lines = by_row(size, &case.register.entries);
        Side {
            size,
            lines,
            starts: &mut lists.row_starts,
            numbers: &mut lists.row_cols,
        }
    }
}

fn start_over_next(case: &mut Case, dice: &mut Dice) -> bool {
    let side = side(case, dice);
    if side.size < 2 {
        return false;
    }
    let place = 1 + dice.below(side.size - 1);
    let next = side.starts.get(place + 1).copied().unwrap_or(0) as usize;
    put(side.starts, place, next + 1 + dice.below(3))
}

fn last_start_low(case: &mut Case, dice: &mut Dice) -> bool {
    let side = side(case, dice);
    let before = side.starts.get(side.size - 1).copied().unwrap_or(0) as usize;
    before > 0 && put(side.starts, side.size, before - 1 - dice.below(before))
}

// The last start is left good, so no list is short.
fn start_past_list(case: &mut Case, dice: &mut Dice) -> bool {
    let side = side(case, dice);
    if side.size < 2 {
        return false;
    }
    let place = 1 + dice.below(side.size - 1);
    let past = side.numbers.len() + 1 + dice.below(3);
    put(side.starts, place, if dice.coin() { past } else { 0xFFFF })
}

fn number_too_large(case: &mut Case, dice: &mut Dice, at_end: bool) -> bool {
    let side = side(case, dice);
    let number = too_large(dice, side.size);
    let line = dice.below(side.size);
    let end: usize = side.lines[..=line].iter().map(Vec::len).sum();
    let total = side.lines.iter().map(Vec::len).sum();
    let place = if at_end { end - 1 } else { dice.below(total) };
    put(side.numbers, place, number)
}

fn neighbours(case: &mut Case, dice: &mut Dice, equal: bool) -> bool {
    let side = side(case, dice);
    let mut two_in_line = Vec::new();
    let mut begin = 0;
    for line in &side.lines {
        two_in_line.extend((begin + 1)..(begin + line.len()));
        begin += line.len();
    }
    if two_in_line.is_empty() || side.numbers.len() < begin {
        return false;
    }
    let place = dice.pick(&two_in_line);
    match equal {
        true => side.numbers[place] = side.numbers[place - 1],
        false => side.numbers.swap(place - 1, place),
    }
    true
}

fn total_over(case: &mut Case, dice: &mut Dice) -> bool {
    let side = side(case, dice);
    let total = 12_001 + dice.below(100);
    let wanting = total.saturating_sub(side.numbers.len());
    side.numbers.extend(dice.rubbish(wanting));
    put(side.starts, side.size, total)
}
