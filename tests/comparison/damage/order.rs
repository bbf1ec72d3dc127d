// Reply 5: the order has a wrong number or a number twice, or it is not sound for the entries.

use super::differ::{list_columns, list_rows};
use super::{damage, put, too_large, Damage};
use crate::calls::Case;
use crate::dice::Dice;
use crate::register::Entries;

pub const ALL: &[Damage] = &[
    damage("order row too large", |case, dice| {
        let number = too_large(dice, case.register.size);
        put(
            &mut case.call.lists.order_rows,
            dice.below(case.register.size),
            number,
        )
    }),
    damage("order column too large", |case, dice| {
        let number = too_large(dice, case.register.size);
        put(
            &mut case.call.lists.order_cols,
            dice.below(case.register.size),
            number,
        )
    }),
    damage("order row twice", |case, dice| {
        let (from, to) = two_places(case, dice);
        let row = case.register.rows[from];
        from != to && put(&mut case.call.lists.order_rows, to, row)
    }),
    damage("order column twice", |case, dice| {
        let (from, to) = two_places(case, dice);
        let column = case.register.cols[from];
        from != to && put(&mut case.call.lists.order_cols, to, column)
    }),
    damage("two rows change places", |case, dice| {
        let (early, late) = two_places(case, dice);
        swap_rows(case, early, late)
    }),
    damage("two columns change places", |case, dice| {
        let (early, late) = two_places(case, dice);
        swap_columns(case, early, late)
    }),
    damage("two pairs change places", pairs_swapped),
    damage("pair is no entry", pair_absent),
    damage("entry under the diagonal", entry_under),
    damage("empty column", |case, dice| {
        emptied(case, dice, |entry| entry.1)
    }),
    damage("empty row", |case, dice| {
        emptied(case, dice, |entry| entry.0)
    }),
];

fn two_places(case: &Case, dice: &mut Dice) -> (usize, usize) {
    (
        dice.below(case.register.size),
        dice.below(case.register.size),
    )
}

fn swap_rows(case: &mut Case, early: usize, late: usize) -> bool {
    let rows = &case.register.rows;
    let (first, second) = (rows[early], rows[late]);
    let list = &mut case.call.lists.order_rows;
    early != late && put(list, early, second) && put(list, late, first)
}

fn swap_columns(case: &mut Case, early: usize, late: usize) -> bool {
    let cols = &case.register.cols;
    let (first, second) = (cols[early], cols[late]);
    let list = &mut case.call.lists.order_cols;
    early != late && put(list, early, second) && put(list, late, first)
}

// Two pairs with an entry between them, so that only one of them can be the earlier.
fn pairs_swapped(case: &mut Case, dice: &mut Dice) -> bool {
    let (row_places, col_places) = (case.register.row_places(), case.register.col_places());
    let entries = case.register.entries.iter();
    let places = entries.map(|&(row, column)| (row_places[row], col_places[column]));
    let over: Vec<(usize, usize)> = places.filter(|(early, late)| early != late).collect();
    if over.is_empty() {
        return false;
    }
    let (early, late) = dice.pick(&over);
    swap_rows(case, early, late) && swap_columns(case, early, late)
}

fn list_both(case: &mut Case, entries: &Entries) -> bool {
    list_rows(case, entries) && list_columns(case, entries)
}

fn pair_absent(case: &mut Case, dice: &mut Dice) -> bool {
    let place = dice.below(case.register.size);
    let mut entries = case.register.entries.clone();
    entries.remove(&(case.register.rows[place], case.register.cols[place]));
    list_both(case, &entries)
}

fn entry_under(case: &mut Case, dice: &mut Dice) -> bool {
    let late = dice.below(case.register.size);
    if late == 0 {
        return false;
    }
    let early = dice.below(late);
    let mut entries = case.register.entries.clone();
    entries.insert((case.register.rows[late], case.register.cols[early]));
    list_both(case, &entries)
}

fn emptied(case: &mut Case, dice: &mut Dice, line_of: fn(&(usize, usize)) -> usize) -> bool {
    let line = dice.below(case.register.size);
    let mut entries = case.register.entries.clone();
    entries.retain(|entry| line_of(entry) != line);
    list_both(case, &entries)
}
