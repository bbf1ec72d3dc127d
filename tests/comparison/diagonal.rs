// The row paired with the column may be absent from the new rows, and that alone decides nothing:
// all three verdicts are met without it, and PERMUTED and ELIMINATION with it.

use crate::call::{reply_name, SINGULAR};
use crate::calls;
use crate::columns;
use crate::group::Group;
use crate::registers;

pub fn group(group: &mut Group) {
    for _ in 0..15_000 {
        one(group);
        if group.failed() {
            return;
        }
    }
    for case in [
        "SINGULAR absent",
        "PERMUTED absent",
        "ELIMINATION absent",
        "PERMUTED present",
        "ELIMINATION present",
    ] {
        group.need(case, 500);
    }
}

fn one(group: &mut Group) {
    let mut dice = group.dice();
    let size = 1 + dice.below(9);
    let register = registers::any(&mut dice, size);
    let column = calls::some_column(&mut dice, &register);
    let paired = register.paired_row(column) as u16;
    let mut new_rows = columns::any(&mut dice, &register, column);
    let present = dice.coin();
    new_rows.retain(|&row| row != paired);
    if present {
        let place = new_rows.partition_point(|&row| row < paired);
        new_rows.insert(place, paired);
    }
    let call = calls::lend(&mut dice, &register, column, new_rows);
    let wanted = group.same(&call);
    let word = if present { "present" } else { "absent" };
    group.count(&format!("{} {word}", reply_name(wanted.reply)));
    if present && wanted.reply == SINGULAR {
        group.fail(&format!(
            "the old pairs are a choice, and yet SINGULAR\n{}",
            call.told()
        ));
    }
}
