// The replacements that are measured: for each register so many of each verdict, drawn at random.
// Most have a new row past the column's place, so that there is something to search for.

use crate::dice::Dice;
use crate::lists::Lists;
use crate::plain::Plain;
use crate::replies::{Reply, MAX_SIZE, MAX_TOTAL, PERMUTED};

// Of each verdict; of these at most so many have no new row past the column's place; and of the
// PERMUTED ones at most so many keep all pairs.
const WANTED: usize = 36;
const IDLE: usize = 9;
const KEPT: usize = 24;

// After so many draws a verdict is given up.
const DRAWS: usize = 100_000;

pub struct Draw {
    pub column: usize,
    pub new_rows: Vec<u16>,
    pub reply: Reply,
    pub order_changes: bool,
    pub pairs_change: bool,
}

pub fn of_verdict(
    dice: &mut Dice,
    plain: &mut Plain,
    lists: &Lists,
    verdict: usize,
) -> Result<Vec<Draw>, String> {
    let mut draws = Vec::new();
    let (mut idle, mut kept) = (0, 0);
    for _ in 0..DRAWS {
        let (column, new_rows, past) = any(dice, lists);
        if !fits(lists, column, new_rows.len()) || !past && idle == IDLE {
            continue;
        }
        let draw = judged(plain, lists, column, new_rows);
        let keeps = verdict == PERMUTED && !draw.pairs_change;
        if draw.reply.number != verdict || keeps && kept == KEPT {
            continue;
        }
        idle += usize::from(!past);
        kept += usize::from(keeps);
        draws.push(draw);
        if draws.len() == WANTED {
            return Ok(draws);
        }
    }
    Err(format!("the verdict {verdict} is too rare"))
}

fn judged(plain: &mut Plain, lists: &Lists, column: usize, new_rows: Vec<u16>) -> Draw {
    let mut after = lists.clone();
    let reply = plain.replace(MAX_SIZE, &mut after, column, &new_rows);
    let order = |lists: &Lists| (lists.order_rows.clone(), lists.order_cols.clone());
    Draw {
        column,
        new_rows,
        reply,
        order_changes: order(&after) != order(lists),
        pairs_change: paired(&after, column) != paired(lists, column),
    }
}

// The column's row in the order. Where it stays, all pairs do.
fn paired(lists: &Lists, column: usize) -> Option<u16> {
    let mut pairs = lists.order_rows.iter().zip(&lists.order_cols);
    pairs
        .find(|(_, &col)| usize::from(col) == column)
        .map(|(&row, _)| row)
}

fn fits(lists: &Lists, column: usize, count: usize) -> bool {
    let starts = &lists.col_starts;
    usize::from(starts[MAX_SIZE] - (starts[column + 1] - starts[column])) + count <= MAX_TOTAL
}

// A column, its new rows, and whether one of them is past its place. They are mostly a few and
// sometimes some dozens, and half of the time the paired row is among them.
fn any(dice: &mut Dice, lists: &Lists) -> (usize, Vec<u16>, bool) {
    let place = dice.below(MAX_SIZE);
    let many = dice.below(4) == 0;
    let count = if many {
        8 + dice.below(30)
    } else {
        1 + dice.below(7)
    };
    let mut places = some_places(dice, lists, place, count);
    if dice.below(2) == 0 {
        places.push(place);
    }
    let past = places.iter().any(|&at| place < at);
    let mut rows: Vec<u16> = places.iter().map(|&at| lists.order_rows[at]).collect();
    rows.sort();
    rows.dedup();
    (lists.order_cols[place].into(), rows, past)
}

// Four kinds of columns: over all places, about the column's own, and before it with one row past
// it, which is any row or one that the column leads to.
fn some_places(dice: &mut Dice, lists: &Lists, place: usize, count: usize) -> Vec<usize> {
    let last = MAX_SIZE - 1;
    let kind = dice.below(4);
    let mut one = |k| match (kind, k) {
        (0, _) => dice.below(MAX_SIZE),
        (1, _) => (place + dice.below(80)).saturating_sub(40).min(last),
        (2, 0) => (place + 1 + dice.below(100)).min(last),
        (3, 0) => led_to(dice, lists, place),
        _ => dice.below(place + 1),
    };
    (0..count).map(&mut one).collect()
}

// The place of some column of the row at this place.
fn led_to(dice: &mut Dice, lists: &Lists, place: usize) -> usize {
    let row = usize::from(lists.order_rows[place]);
    let (from, to) = (
        lists.row_starts[row].into(),
        lists.row_starts[row + 1].into(),
    );
    let cols: &[u16] = &lists.row_cols[from..to];
    let col = cols[dice.below(cols.len())];
    lists
        .order_cols
        .iter()
        .position(|&other| other == col)
        .unwrap_or(place)
}
