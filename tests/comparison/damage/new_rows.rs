// Reply 7: the new column has a row of the size or more, or its rows do not strictly rise.

use super::{damage, too_large, Damage};
use crate::calls::Case;
use crate::dice::Dice;

pub const ALL: &[Damage] = &[
    damage("new row too large at the end", |case, dice| {
        let row = too_large(dice, case.register.size) as u16;
        case.call.new_rows.push(row);
        true
    }),
    damage("new row too large anywhere", |case, dice| {
        let row = too_large(dice, case.register.size) as u16;
        let place = dice.below(case.call.new_rows.len() + 1);
        case.call.new_rows.insert(place, row);
        true
    }),
    damage("a new row twice", |case, dice| {
        let rows = &mut case.call.new_rows;
        if rows.is_empty() {
            rows.push(dice.below(case.register.size) as u16);
        }
        let place = dice.below(rows.len());
        rows.insert(place, rows[place]);
        true
    }),
    damage("new rows fall", falling),
    damage("more new rows than the size", |case, dice| {
        let size = case.register.size;
        case.call.new_rows = (0..=size + dice.below(5)).map(|row| row as u16).collect();
        true
    }),
    damage("more new rows than the size, all in range", |case, dice| {
        let size = case.register.size;
        case.call.new_rows = (0..=size + dice.below(5))
            .map(|row| row.min(size - 1) as u16)
            .collect();
        true
    }),
];

// The wrong step may be the first, the last or any other.
fn falling(case: &mut Case, dice: &mut Dice) -> bool {
    let size = case.register.size;
    if size < 2 {
        return false;
    }
    if case.call.new_rows.len() < 2 {
        case.call.new_rows = vec![0, size as u16 - 1];
    }
    let place = dice.below(case.call.new_rows.len() - 1);
    case.call.new_rows.swap(place, place + 1);
    true
}
