// Reply 4: both listings are well formed and list different entries.

use super::{damage, Damage};
use crate::calls::Case;
use crate::dice::Dice;
use crate::register::{by_column, by_row, listing, Entries};
use crate::second::over;

pub const ALL: &[Damage] = &[
    damage("row listing lacks an entry", |case, dice| {
        let entries = with_one_less(case, dice);
        list_rows(case, &entries)
    }),
    damage("column listing lacks an entry", |case, dice| {
        let entries = with_one_less(case, dice);
        list_columns(case, &entries)
    }),
    damage("row listing has one more", |case, dice| {
        with_one_more(case, dice).is_some_and(|entries| list_rows(case, &entries))
    }),
    damage("column listing has one more", |case, dice| {
        with_one_more(case, dice).is_some_and(|entries| list_columns(case, &entries))
    }),
    damage("one entry stands elsewhere in its row", moved_in_row),
    damage("two entries change columns", crossed),
    damage("row listing not turned", not_turned),
];

pub fn list_rows(case: &mut Case, entries: &Entries) -> bool {
    let (starts, numbers) = listing(&by_row(case.register.size, entries));
    let lists = &mut case.call.lists;
    lists.row_starts = over(starts, &lists.row_starts);
    lists.row_cols = over(numbers, &lists.row_cols);
    true
}

pub fn list_columns(case: &mut Case, entries: &Entries) -> bool {
    let (starts, numbers) = listing(&by_column(case.register.size, entries));
    let lists = &mut case.call.lists;
    lists.col_starts = over(starts, &lists.col_starts);
    lists.col_rows = over(numbers, &lists.col_rows);
    true
}

fn some_entry(case: &Case, dice: &mut Dice) -> (usize, usize) {
    let entries: Vec<_> = case.register.entries.iter().copied().collect();
    dice.pick(&entries)
}

fn with_one_less(case: &Case, dice: &mut Dice) -> Entries {
    let mut entries = case.register.entries.clone();
    entries.remove(&some_entry(case, dice));
    entries
}

fn with_one_more(case: &Case, dice: &mut Dice) -> Option<Entries> {
    let size = case.register.size;
    let all = (0..size).flat_map(|row| (0..size).map(move |column| (row, column)));
    let absent: Vec<_> = all
        .filter(|entry| !case.register.entries.contains(entry))
        .collect();
    absent.first()?;
    let mut entries = case.register.entries.clone();
    entries.insert(dice.pick(&absent));
    Some(entries)
}

// Equal totals and equal counts in every row.
fn moved_in_row(case: &mut Case, dice: &mut Dice) -> bool {
    let (row, column) = some_entry(case, dice);
    let all = 0..case.register.size;
    let absent: Vec<usize> = all
        .filter(|&other| !case.register.has(row, other))
        .collect();
    if absent.is_empty() {
        return false;
    }
    let mut entries = case.register.entries.clone();
    entries.remove(&(row, column));
    entries.insert((row, dice.pick(&absent)));
    list_rows(case, &entries)
}

// Equal counts in every row and every column.
fn crossed(case: &mut Case, dice: &mut Dice) -> bool {
    for _ in 0..20 {
        let (first, second) = (some_entry(case, dice), some_entry(case, dice));
        let (third, fourth) = ((first.0, second.1), (second.0, first.1));
        let mut entries = case.register.entries.clone();
        if entries.contains(&third) || entries.contains(&fourth) {
            continue;
        }
        entries.remove(&first);
        entries.remove(&second);
        entries.extend([third, fourth]);
        return list_rows(case, &entries);
    }
    false
}

fn not_turned(case: &mut Case, _: &mut Dice) -> bool {
    let turned = case
        .register
        .entries
        .iter()
        .map(|&(row, column)| (column, row))
        .collect();
    turned != case.register.entries && list_rows(case, &turned)
}
