// Totals of 12,000 and 12,001 that a put brings about, with each verdict that it would have given,
// and room that comes free again.

use crate::dice::Dice;
use crate::group::Group;
use crate::starts;
use crate::texts::{self, line};
use crate::trial::Trial;

pub fn group(group: &mut Group) {
    for target in [11_999, 12_000, 12_001, 12_002] {
        group.many(6, |dice| coming(dice, target));
    }
    group.many(6, full_start);
    group.many(4, room_again);
    group.need("put REFUSED 8", 20);
    for verdict in ["SINGULAR", "PERMUTED", "ELIMINATION"] {
        group.need(verdict, 12);
    }
}

// Three puts that each bring a start of 11,900 to the target; between them the old column comes
// back, so that each meets the same total.
fn coming(dice: &mut Dice, target: usize) -> Trial {
    let size = dice.pick(&[250, 400, 1_000]);
    let column = size - 2;
    let mut columns = starts::of_total(dice, size, 11_900);
    // The last column is reached from the one before it.
    if !columns[size - 1].contains(&column) {
        let place = columns[size - 1].len() - 1;
        columns[size - 1].insert(place, column);
    }
    let total: usize = columns.iter().map(Vec::len).sum();
    let count = target - (total - columns[column].len());
    let early: Vec<usize> = (0..count).collect();
    let with = |more: &[usize]| [&early[more.len()..], more].concat();
    let mut text = texts::start(&columns);
    // No row is reached; the own row; the own row and one reached.
    for rows in [with(&[]), with(&[column]), with(&[column, column + 1])] {
        text += &line("put", column, &rows);
        text += &line("put", column, &columns[column]);
    }
    text += &line("put", column, &[]);
    Trial::any_way(text, dice).about("coming total")
}

// With 12,000 entries each column may come again, but not with a row more.
fn full_start(dice: &mut Dice) -> Trial {
    let size = dice.pick(&[155, 300, 1_000]);
    let columns = starts::of_total(dice, size, 12_000);
    let mut text = texts::start(&columns);
    for _ in 0..4 {
        let column = 1 + dice.below(size - 2);
        text += &line("put", column, &columns[column]);
        let rows = columns[column].len() + 1;
        if rows < size {
            text += &line("put", column, &(0..rows).collect::<Vec<_>>());
            text += &line("put", column, &(size - rows..size).collect::<Vec<_>>());
        }
        text += &line("put", column, &(0..size).collect::<Vec<_>>());
        // These two are refused for another reason first.
        text += &line("put", size, &(0..size).collect::<Vec<_>>());
        text += &line("put", column, &(0..=size).collect::<Vec<_>>());
    }
    Trial::any_way(text, dice).about("full start")
}

// An elimination clears a row, and a short column makes room for a long one.
fn room_again(dice: &mut Dice) -> Trial {
    let size = 300;
    let mut columns = starts::of_total(dice, size, 11_700);
    for (column, rows) in columns.iter_mut().enumerate().skip(1) {
        if rows[0] != 0 && column > size - 250 {
            rows.insert(0, 0);
        }
    }
    let total: usize = columns.iter().map(Vec::len).sum();
    let mut text = texts::start(&columns[..]);
    let full: Vec<usize> = (0..size).collect();
    let room = 12_000usize.saturating_sub(total);
    for count in [room + 2, room + 1, room, size] {
        text += &line("put", 0, &full[..count.min(size)]);
    }
    for column in [1, 2, 3, 200, 299] {
        text += &line("put", column, &full);
        text += &line("put", column, &[column]);
        text += &line("put", column, &full);
    }
    Trial::any_way(text, dice).about("room again")
}
