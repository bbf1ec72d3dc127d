// Reply 2: a list is shorter than the register, or than its last start says.

use super::{damage, put, Damage};
use crate::dice::Dice;

pub const ALL: &[Damage] = &[
    damage("column starts short", |case, dice| {
        cut(
            &mut case.call.lists.col_starts,
            case.register.size + 1,
            dice,
        )
    }),
    damage("row starts short", |case, dice| {
        cut(
            &mut case.call.lists.row_starts,
            case.register.size + 1,
            dice,
        )
    }),
    damage("order rows short", |case, dice| {
        cut(&mut case.call.lists.order_rows, case.register.size, dice)
    }),
    damage("order columns short", |case, dice| {
        cut(&mut case.call.lists.order_cols, case.register.size, dice)
    }),
    damage("eta list short", |case, dice| {
        cut(&mut case.call.lists.eta, case.register.size, dice)
    }),
    damage("column entries short", |case, dice| {
        cut(
            &mut case.call.lists.col_rows,
            case.register.entries.len(),
            dice,
        )
    }),
    damage("row entries short", |case, dice| {
        cut(
            &mut case.call.lists.row_cols,
            case.register.entries.len(),
            dice,
        )
    }),
    damage("last column start past its list", |case, dice| {
        let past = case.call.lists.col_rows.len() + 1;
        put(
            &mut case.call.lists.col_starts,
            case.register.size,
            far(dice, past),
        )
    }),
    damage("last row start past its list", |case, dice| {
        let past = case.call.lists.row_cols.len() + 1;
        put(
            &mut case.call.lists.row_starts,
            case.register.size,
            far(dice, past),
        )
    }),
];

// Mostly one place short.
fn cut(list: &mut Vec<u16>, needed: usize, dice: &mut Dice) -> bool {
    let left = if dice.in_hundred(75) {
        needed - 1
    } else {
        dice.below(needed)
    };
    list.truncate(left);
    true
}

// Over 12,000 too: a list shorter than that makes it a short list, not a malformed listing.
fn far(dice: &mut Dice, past: usize) -> usize {
    match dice.below(3) {
        0 => past,
        1 => past + dice.below(30),
        _ => past.max(12_001 + dice.below(53_000)),
    }
}
