// The check of a register (0, or 1 to 5) and the look at one column, on good registers, damaged
// ones and rubbish.

use crate::calls::{self, Case};
use crate::damage;
use crate::desk;
use crate::dice::Dice;
use crate::group::Group;
use crate::random;
use crate::second;

pub fn check(group: &mut Group) {
    for _ in 0..30_000 {
        let mut dice = group.dice();
        let case = good_or_damaged(&mut dice);
        let (size, lists) = (case.call.size, &case.call.lists);
        let wanted = second::register_fault(size, lists).unwrap_or(0);
        let (got, kept) = desk::check(size, lists);
        group.called();
        group.count(&wanted.to_string());
        if got != wanted || !kept {
            let told = case.call.told();
            let kept = if kept { "" } else { " and changed a list" };
            group.fail(&format!(
                "the check gave {got}{kept}, wanted was {wanted}\n{told}"
            ));
            return;
        }
    }
    for reply in ["0", "1", "2", "3", "4", "5"] {
        group.need(reply, 1_000);
    }
}

fn good_or_damaged(dice: &mut Dice) -> Case {
    let mut case = calls::any(dice);
    match dice.below(10) {
        0 | 1 => {}
        2..=6 => {
            let all = damage::of_reply(1 + dice.below(5));
            (dice.pick(all).work)(&mut case, dice);
        }
        7 => random::damage_it(&mut case, dice, 2),
        _ => damage::scratch(&mut case, dice),
    }
    case
}

pub fn registers(group: &mut Group) {
    for _ in 0..30_000 {
        let mut dice = group.dice();
        let mut case = good_or_damaged(&mut dice);
        if dice.coin() {
            random::damage_it(&mut case, &mut dice, 1);
        }
        let (call, lists) = (&case.call, &case.call.lists);
        same_look(
            group,
            call.size,
            &lists.col_starts,
            &lists.col_rows,
            call.column,
        );
        if group.failed() {
            return;
        }
    }
    group.need("rows", 5_000);
}

// Nothing but the two starts and the lengths counts, so lists without any sense show the rest.
pub fn rubbish(group: &mut Group) {
    for _ in 0..30_000 {
        let mut dice = group.dice();
        let size = match dice.below(12) {
            0 => dice.pick(&[0, 1_001, 1_002, 65_537, usize::MAX]),
            1 => dice.pick(&[999, 1_000]),
            _ => 1 + dice.below(5),
        };
        let needed = size.min(1_200) + 1;
        let spread = (dice.below(4) + needed).saturating_sub(dice.below(2));
        let starts: Vec<u16> = (0..spread).map(|_| dice.below(10) as u16).collect();
        let length = dice.below(12);
        let rows = dice.rubbish(length);
        let column = dice.below(needed).saturating_sub(dice.below(2));
        same_look(group, size, &starts, &rows, column);
        if group.failed() {
            return;
        }
    }
    for case in ["size", "column", "starts", "fall", "past the list"] {
        group.need(&format!("nothing by {case}"), 500);
    }
    group.need("rows", 2_000);
    group.need("an empty part inside", 500);
}

fn same_look(group: &mut Group, size: usize, starts: &[u16], rows: &[u16], column: usize) {
    let wanted = second::look(size, starts, rows, column);
    let got = desk::look(size, starts, rows, column);
    group.called();
    group.count(kind(size, starts, rows, column, wanted));
    if got != wanted {
        group.fail(&format!(
            "the look gave place and length {got:?}, wanted was {wanted:?}\n  size {size}\n  \
             column {column}\n  starts {starts:?}\n  rows {rows:?}"
        ));
    }
}

// Why the part is empty, or what it is: so that every reason is seen to be met.
fn kind(
    size: usize,
    starts: &[u16],
    rows: &[u16],
    column: usize,
    part: (usize, usize),
) -> &'static str {
    if size == 0 || size > 1_000 {
        "nothing by size"
    } else if column >= size {
        "nothing by column"
    } else if starts.len() <= size {
        "nothing by starts"
    } else if starts[column] > starts[column + 1] {
        "nothing by fall"
    } else if starts[column + 1] as usize > rows.len() {
        "nothing by past the list"
    } else if part.1 > 0 {
        "rows"
    } else if part.0 > 0 {
        "an empty part inside"
    } else {
        "an empty part at the beginning"
    }
}
