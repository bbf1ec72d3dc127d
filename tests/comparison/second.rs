// The second program: what a replacement, a check and a look must give, from the build paper's
// sentences and by other methods than the library's. It works on sets and builds every list
// afresh.

mod after;
mod checks;
mod choice;
mod reach;
mod triangle;

use crate::call::{Call, Lists, Outcome, ELIMINATION, PERMUTED, SINGULAR, SIZE_LIMIT};
use crate::register::{by_row, Entries, Register};

pub use after::{lists as lists_after, over};
pub use checks::register_fault;
pub use reach::reach;

pub enum Verdict {
    Singular,
    Permuted { rows: Vec<usize>, cols: Vec<usize> },
    Elimination,
}

pub fn replace(call: &Call) -> Outcome {
    if let Some(number) = checks::refusal(call) {
        return unchanged(number, &call.lists);
    }
    let register = Register::read(call.size, &call.lists);
    let new_rows: Vec<usize> = call.new_rows.iter().map(|&row| row as usize).collect();
    let spiked = spiked_pattern(&register, call.column, &new_rows);
    match judge(&register, &spiked) {
        Verdict::Singular => unchanged(SINGULAR, &call.lists),
        Verdict::Permuted { rows, cols } => {
            let next = Register {
                size: call.size,
                entries: spiked,
                rows,
                cols,
            };
            let lists = after::lists(&next, &[], &call.lists);
            Outcome {
                lists,
                ..unchanged(PERMUTED, &call.lists)
            }
        }
        Verdict::Elimination => eliminate(call, &register, spiked, &new_rows),
    }
}

pub fn spiked_pattern(register: &Register, column: usize, new_rows: &[usize]) -> Entries {
    let mut spiked = register.entries.clone();
    spiked.retain(|entry| entry.1 != column);
    spiked.extend(new_rows.iter().map(|&row| (row, column)));
    spiked
}

pub fn judge(register: &Register, spiked: &Entries) -> Verdict {
    let Some(chosen) = choice::full_choice(register.size, spiked) else {
        return Verdict::Singular;
    };
    let after = triangle::arrows(&chosen, spiked);
    if triangle::has_cycle(&after) {
        return Verdict::Elimination;
    }
    let cols = triangle::least_order(&after, &register.col_places());
    let rows = cols.iter().map(|&column| chosen[column]).collect();
    Verdict::Permuted { rows, cols }
}

fn eliminate(call: &Call, old: &Register, spiked: Entries, new_rows: &[usize]) -> Outcome {
    let (column, row) = (call.column, old.paired_row(call.column));
    let mut entries = spiked;
    entries.retain(|entry| entry.0 != row);
    entries.insert((row, column));
    let next = Register {
        size: old.size,
        entries,
        rows: moved_last(&old.rows, row),
        cols: moved_last(&old.cols, column),
    };
    let eta = eta_rows(old, column);
    Outcome {
        reply: ELIMINATION,
        bump: bump(old, column, new_rows),
        eta_count: eta.len(),
        lists: after::lists(&next, &eta, &call.lists),
        spilled: false,
    }
}

fn moved_last(list: &[usize], number: usize) -> Vec<usize> {
    let others = list.iter().copied().filter(|&other| other != number);
    others.chain([number]).collect()
}

fn eta_rows(old: &Register, column: usize) -> Vec<usize> {
    let reached = reach(old, column);
    let others = reached.iter().filter(|&&other| other != column);
    let mut rows: Vec<usize> = others.map(|&other| old.paired_row(other)).collect();
    rows.sort();
    rows
}

fn bump(old: &Register, column: usize, new_rows: &[usize]) -> usize {
    let row_places = old.row_places();
    let greatest = new_rows.iter().map(|&row| row_places[row]).max();
    greatest.expect("a choice needs a new row") + 1 - old.col_places()[column]
}

fn unchanged(reply: usize, lists: &Lists) -> Outcome {
    Outcome {
        reply,
        bump: 0,
        eta_count: 0,
        lists: lists.clone(),
        spilled: false,
    }
}

// Where the part of one column begins and how long it is.
pub fn look(size: usize, starts: &[u16], rows: &[u16], column: usize) -> (usize, usize) {
    let nothing = (0, 0);
    if size == 0 || size > SIZE_LIMIT || column >= size || starts.len() < size + 1 {
        return nothing;
    }
    let (begin, end) = (starts[column] as usize, starts[column + 1] as usize);
    if begin > end || end > rows.len() {
        return nothing;
    }
    (begin, end - begin)
}

// The columns of each column's paired row: where one may go from it.
fn ways(register: &Register) -> Vec<Vec<usize>> {
    let rows = by_row(register.size, &register.entries);
    (0..register.size)
        .map(|column| rows[register.paired_row(column)].clone())
        .collect()
}
