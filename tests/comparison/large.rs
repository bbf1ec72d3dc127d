// The largest sizes: 1,000 with few and with many entries, a nearly full triangle, and chains in
// which reach goes through every place. The column stands at the first, a middle or the last
// place.

use crate::call::{reply_name, Outcome};
use crate::calls;
use crate::columns;
use crate::group::Group;
use crate::register::narrow;
use crate::registers;

pub fn patterns(group: &mut Group) {
    let shapes = [
        (1_000, 1_000),
        (1_000, 3_000),
        (1_000, 12_000),
        (155, 12_000),
    ];
    for (size, total) in shapes {
        for place in [0, size / 3, size / 2, size - 1] {
            for kind in columns::KINDS {
                let mut dice = group.dice();
                let register = registers::of_total(&mut dice, size, total);
                let column = register.cols[place];
                let new_rows = columns::of_kind(kind, &mut dice, &register, column);
                let call = calls::lend(&mut dice, &register, column, new_rows);
                group.same(&call);
                if group.failed() {
                    return;
                }
            }
        }
    }
    for reply in ["SINGULAR", "PERMUTED", "ELIMINATION", "8"] {
        group.need(reply, 8);
    }
}

pub fn chains(group: &mut Group) {
    for place in [0, 1, 499, 998, 999] {
        for deepest in [0, 1, 500, 998, 999] {
            for with_paired in [false, true] {
                let wanted = chained(group, place, deepest, with_paired);
                if (place, deepest) == (0, 999) {
                    let reply = reply_name(wanted.reply);
                    group.count(&format!(
                        "end to end {reply} with {} eta rows",
                        wanted.eta_count
                    ));
                }
                if group.failed() {
                    return;
                }
            }
        }
    }
    // The pairing moves along all 1,000 places at once; and every row but one is in the eta list.
    group.need("end to end PERMUTED with 0 eta rows", 1);
    group.need("end to end ELIMINATION with 999 eta rows", 1);
}

// The new column of the given place has the row of the deepest place, and the paired row or not.
fn chained(group: &mut Group, place: usize, deepest: usize, with_paired: bool) -> Outcome {
    let mut dice = group.dice();
    let links = (1..1_000).map(|place| (place - 1, place)).collect();
    let register = registers::of_places(&mut dice, 1_000, links);
    let mut rows = vec![register.rows[deepest]];
    if with_paired && deepest != place {
        rows.push(register.rows[place]);
    }
    rows.sort();
    let call = calls::lend(&mut dice, &register, register.cols[place], narrow(&rows));
    group.same(&call)
}
