// The build paper's specimens s1 to s12 and its running example, with what each leaves behind
// written out by hand. The second program is held to them too.

use crate::call::{Call, Outcome, ELIMINATION, PERMUTED, SINGULAR};
use crate::calls;
use crate::group::Group;
use crate::register::{Entries, Register};
use crate::second::{self, over};

type Columns = &'static [&'static [usize]];

const A: Columns = &[&[0], &[0, 1], &[2]];
const B: Columns = &[&[0], &[0, 1], &[0, 2]];
const C: Columns = &[&[0], &[0, 1], &[0, 1, 2]];
const D: Columns = &[&[0], &[0, 1], &[1, 2]];
const E: Columns = &[&[0]];

// Where nothing changes, `after` and `order` are those from before.
struct Specimen {
    name: &'static str,
    before: Columns,
    column: usize,
    new_rows: &'static [u16],
    reply: usize,
    after: Columns,
    order: &'static [(usize, usize)],
    bump: usize,
    eta: &'static [u16],
}

// The order t:t, and the order in which 0:0 went to the last place.
const BY_NUMBER: &[(usize, usize)] = &[(0, 0), (1, 1), (2, 2)];
const LAST: &[(usize, usize)] = &[(1, 1), (2, 2), (0, 0)];

#[rustfmt::skip]
const TABLE: [Specimen; 12] = [
    Specimen { name: "s1", before: E, column: 0, new_rows: &[0], reply: PERMUTED,
        after: E, order: &[(0, 0)], bump: 0, eta: &[] },
    Specimen { name: "s2", before: E, column: 0, new_rows: &[], reply: SINGULAR,
        after: E, order: &[(0, 0)], bump: 0, eta: &[] },
    Specimen { name: "s3", before: A, column: 0, new_rows: &[0], reply: PERMUTED,
        after: A, order: BY_NUMBER, bump: 0, eta: &[] },
    Specimen { name: "s4", before: A, column: 0, new_rows: &[0, 2], reply: PERMUTED,
        after: &[&[0, 2], &[0, 1], &[2]], order: &[(2, 2), (0, 0), (1, 1)], bump: 0, eta: &[] },
    Specimen { name: "s5", before: A, column: 0, new_rows: &[0, 1], reply: ELIMINATION,
        after: &[&[0, 1], &[1], &[2]], order: LAST, bump: 2, eta: &[1] },
    Specimen { name: "s6", before: A, column: 0, new_rows: &[1], reply: PERMUTED,
        after: &[&[1], &[0, 1], &[2]], order: &[(1, 0), (0, 1), (2, 2)], bump: 0, eta: &[] },
    Specimen { name: "s7", before: A, column: 0, new_rows: &[2], reply: SINGULAR,
        after: A, order: BY_NUMBER, bump: 0, eta: &[] },
    Specimen { name: "s8", before: B, column: 0, new_rows: &[1, 2], reply: ELIMINATION,
        after: &[&[0, 1, 2], &[1], &[2]], order: LAST, bump: 3, eta: &[1, 2] },
    Specimen { name: "s9", before: C, column: 0, new_rows: &[2], reply: ELIMINATION,
        after: &[&[0, 2], &[1], &[1, 2]], order: LAST, bump: 3, eta: &[1, 2] },
    Specimen { name: "s10", before: D, column: 0, new_rows: &[2], reply: PERMUTED,
        after: &[&[2], &[0, 1], &[1, 2]], order: &[(2, 0), (1, 2), (0, 1)], bump: 0, eta: &[] },
    Specimen { name: "s11", before: A, column: 0, new_rows: &[2, 0], reply: 7,
        after: A, order: BY_NUMBER, bump: 0, eta: &[] },
    Specimen { name: "s12", before: A, column: 3, new_rows: &[2, 0], reply: 6,
        after: A, order: BY_NUMBER, bump: 0, eta: &[] },
];

// One after another on one register: the paper's text of four replacements.
#[rustfmt::skip]
const EXAMPLE: [Specimen; 4] = [
    Specimen { name: "put 0 0 2", before: D, column: 0, new_rows: &[0, 2], reply: ELIMINATION,
        after: &[&[0, 2], &[1], &[1, 2]], order: LAST, bump: 3, eta: &[1, 2] },
    Specimen { name: "put 0 1 2", before: &[], column: 0, new_rows: &[1, 2], reply: SINGULAR,
        after: &[&[0, 2], &[1], &[1, 2]], order: LAST, bump: 0, eta: &[] },
    Specimen { name: "put 2 0", before: &[], column: 2, new_rows: &[0], reply: PERMUTED,
        after: &[&[0, 2], &[1], &[0]], order: &[(1, 1), (0, 2), (2, 0)], bump: 0, eta: &[] },
    Specimen { name: "put 3 0", before: &[], column: 3, new_rows: &[0], reply: 6,
        after: &[&[0, 2], &[1], &[0]], order: &[(1, 1), (0, 2), (2, 0)], bump: 0, eta: &[] },
];

fn register(columns: Columns, order: &[(usize, usize)]) -> Register {
    let mut entries = Entries::new();
    for (column, rows) in columns.iter().enumerate() {
        entries.extend(rows.iter().map(|&row| (row, column)));
    }
    let (rows, cols) = order.iter().copied().unzip();
    Register {
        size: columns.len(),
        entries,
        rows,
        cols,
    }
}

// Ten times each, with other spare places in the lists.
pub fn table(group: &mut Group) {
    for specimen in &TABLE {
        let before = register(specimen.before, &BY_NUMBER[..specimen.before.len()]);
        for _ in 0..10 {
            let mut dice = group.dice();
            let mut call = calls::lend(&mut dice, &before, 0, specimen.new_rows.to_vec());
            hold_specimen(group, specimen, &mut call);
        }
    }
}

pub fn example(group: &mut Group) {
    for _ in 0..10 {
        let mut dice = group.dice();
        let before = register(EXAMPLE[0].before, BY_NUMBER);
        let mut call = calls::lend(&mut dice, &before, 0, vec![0, 1, 2]);
        for specimen in &EXAMPLE {
            call.lists = hold_specimen(group, specimen, &mut call).lists;
        }
    }
}

fn hold_specimen(group: &mut Group, specimen: &Specimen, call: &mut Call) -> Outcome {
    call.column = specimen.column;
    call.new_rows = specimen.new_rows.to_vec();
    let wanted = wanted(specimen, call);
    let second = second::replace(call);
    if second != wanted {
        let difference = second.difference(&wanted);
        group.fail(&format!(
            "second program on {}: {difference}\n{}",
            specimen.name,
            call.told()
        ));
    }
    group.hold(call, &wanted);
    wanted
}

fn wanted(specimen: &Specimen, call: &Call) -> Outcome {
    let mut lists = call.lists.clone();
    if specimen.reply == PERMUTED || specimen.reply == ELIMINATION {
        let new = register(specimen.after, specimen.order).lists();
        lists.col_starts = over(new.col_starts, &lists.col_starts);
        lists.col_rows = over(new.col_rows, &lists.col_rows);
        lists.row_starts = over(new.row_starts, &lists.row_starts);
        lists.row_cols = over(new.row_cols, &lists.row_cols);
        lists.order_rows = over(new.order_rows, &lists.order_rows);
        lists.order_cols = over(new.order_cols, &lists.order_cols);
        lists.eta = over(specimen.eta.to_vec(), &lists.eta);
    }
    let (reply, bump, eta_count) = (specimen.reply, specimen.bump, specimen.eta.len());
    Outcome {
        reply,
        bump,
        eta_count,
        lists,
        spilled: false,
    }
}
