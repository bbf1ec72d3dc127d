// The limits themselves: size 1,000 and 1,001, totals of 12,000 and 12,001, stored and to come, and
// entry lists with exactly the room needed or one place less.

use crate::call::{reply_name, Call, ELIMINATION, PERMUTED, SINGULAR};
use crate::calls;
use crate::desk;
use crate::dice::Dice;
use crate::group::Group;
use crate::register::{narrow, Register};
use crate::registers;
use crate::second;

pub fn group(group: &mut Group) {
    sizes(group);
    stored_totals(group);
    for target in [11_999, 12_000, 12_001] {
        for verdict in [SINGULAR, PERMUTED, ELIMINATION] {
            for _ in 0..3 {
                coming_total(group, target, verdict);
            }
        }
    }
}

// The reply is known beforehand, so the second program is held to it as well.
fn wants(group: &mut Group, call: &Call, reply: usize) {
    if group.failed() {
        return;
    }
    let wanted = group.same(call);
    if wanted.reply != reply {
        let (got, reply) = (reply_name(wanted.reply), reply_name(reply));
        group.fail(&format!(
            "the second program says {got} and not {reply}\n{}",
            call.told()
        ));
    }
}

fn sizes(group: &mut Group) {
    for (size, replace, check) in [(999, PERMUTED, 0), (1_000, PERMUTED, 0), (1_001, 1, 1)] {
        let mut dice = group.dice();
        let register = registers::of_total(&mut dice, size, 3 * size);
        for column in [0, size / 2, size - 1] {
            let old_rows = narrow(&register.rows_of(column));
            let call = calls::lend(&mut dice, &register, column, old_rows.clone());
            wants(group, &call, replace);
            group.called();
            if desk::check(size, &call.lists) != (check, true) {
                group.fail(&format!("check of size {size}\n{}", call.told()));
            }
            look_at(group, &call, if check == 0 { &old_rows } else { &[] });
        }
    }
}

fn look_at(group: &mut Group, call: &Call, rows: &[u16]) {
    group.called();
    let lists = &call.lists;
    let (begin, length) = desk::look(call.size, &lists.col_starts, &lists.col_rows, call.column);
    let part = lists.col_rows.get(begin..begin.saturating_add(length));
    if part != Some(rows) || (rows.is_empty() && begin != 0) {
        group.fail(&format!(
            "a look gave place {begin}, length {length}\n{}",
            call.told()
        ));
    }
}

// The whole register has 12,000 or 12,001 entries, in lists of a given length.
fn stored_totals(group: &mut Group) {
    let wanted = [
        (12_000, 12_000, 12_000, PERMUTED),
        (12_000, 12_500, 12_000, PERMUTED),
        (12_000, 11_999, 12_500, 2),
        (12_000, 12_500, 11_999, 2),
        (12_001, 12_001, 12_001, 3),
        (12_001, 13_000, 12_500, 3),
        (12_001, 12_000, 13_000, 2),
        (12_001, 13_000, 12_000, 2),
    ];
    for (total, column_room, row_room, reply) in wanted {
        for size in [155, 400, 1_000] {
            let mut dice = group.dice();
            let register = registers::of_total(&mut dice, size, total);
            let column = dice.below(size);
            let mut call = calls::lend(&mut dice, &register, column, vec![]);
            call.new_rows = narrow(&register.rows_of(column));
            set_room(&mut call, &mut dice, column_room, row_room);
            wants(group, &call, reply);
        }
    }
}

fn set_room(call: &mut Call, dice: &mut Dice, column_room: usize, row_room: usize) {
    let lists = &mut call.lists;
    for (list, room) in [
        (&mut lists.col_rows, column_room),
        (&mut lists.row_cols, row_room),
    ] {
        let wanting = room.saturating_sub(list.len());
        list.extend(dice.rubbish(wanting));
        list.truncate(room);
    }
}

// The new column brings the total to the target; the verdict is what an accepted call would give.
fn coming_total(group: &mut Group, target: usize, verdict: usize) {
    let mut dice = group.dice();
    let size = dice.pick(&[200, 300, 1_000]);
    let register = registers::of_total(&mut dice, size, 11_960);
    let place = reaching_place(&register);
    let column = register.cols[place];
    let count = target - register.spiked_total(column, 0);
    let new_rows = rows_for(verdict, &register, place, count);
    // More or less room than needed in the one entry list and in the other.
    for (one, other) in [(0, 0), (800, 500), (-1, 0), (0, -1), (-1, -1)] {
        let room = |more: isize| target.saturating_add_signed(more);
        let mut call = calls::lend(&mut dice, &register, column, new_rows.clone());
        set_room(&mut call, &mut dice, room(one), room(other));
        let taken = target <= 12_000 && one >= 0 && other >= 0;
        wants(group, &call, if taken { verdict } else { 8 });
    }
}

// A late place, for many earlier ones, whose column still reaches another.
fn reaching_place(register: &Register) -> usize {
    let reaches = |&place: &usize| second::reach(register, register.cols[place]).len() > 1;
    (0..register.size - 1)
        .rev()
        .find(reaches)
        .expect("entries over the diagonal")
}

// Rows of earlier places alone are reached by nothing; with the paired row they leave the order
// sound; with a row that is paired to a reached column as well they close a cycle.
fn rows_for(verdict: usize, register: &Register, place: usize, count: usize) -> Vec<u16> {
    assert!(
        count > 2 && count < place,
        "there are enough earlier places"
    );
    let mut rows: Vec<usize> = register.rows[..count].to_vec();
    if verdict != SINGULAR {
        rows[0] = register.rows[place];
    }
    if verdict == ELIMINATION {
        let reached = second::reach(register, register.cols[place]);
        let other = reached
            .into_iter()
            .find(|&column| column != register.cols[place]);
        rows[1] = register.paired_row(other.expect("the column reaches another"));
    }
    rows.sort();
    narrow(&rows)
}
