// Replies 1 to 8, each as the paper's table says it, asked in the order of their numbers.

use crate::call::{Call, Lists, SIZE_LIMIT, TOTAL_LIMIT};
use crate::register::{read_entries, Entries};
use std::collections::BTreeSet;

pub fn refusal(call: &Call) -> Option<usize> {
    let size = call.size;
    // The register's own check has no eta list, so a short one comes between its replies 1 and 2.
    match register_fault(size, &call.lists) {
        Some(1) => return Some(1),
        _ if call.lists.eta.len() < size => return Some(2),
        Some(number) => return Some(number),
        None => {}
    }
    if call.column >= size {
        return Some(6);
    }
    if call.new_rows.iter().any(|&row| row as usize >= size) || !strictly_rising(&call.new_rows) {
        return Some(7);
    }
    no_room(call).then_some(8)
}

// Replies 1 to 5 of the six lists of a register.
pub fn register_fault(size: usize, lists: &Lists) -> Option<usize> {
    if size == 0 || size > SIZE_LIMIT {
        return Some(1);
    }
    if short(size, lists) {
        return Some(2);
    }
    if malformed(size, &lists.col_starts, &lists.col_rows)
        || malformed(size, &lists.row_starts, &lists.row_cols)
    {
        return Some(3);
    }
    let entries = read_entries(size, &lists.col_starts, &lists.col_rows);
    let turned = read_entries(size, &lists.row_starts, &lists.row_cols);
    if entries != turned.iter().map(|&(column, row)| (row, column)).collect() {
        return Some(4);
    }
    let (rows, cols) = (&lists.order_rows[..size], &lists.order_cols[..size]);
    (!sound(size, &entries, rows, cols)).then_some(5)
}

fn short(size: usize, lists: &Lists) -> bool {
    lists.col_starts.len() < size + 1
        || lists.row_starts.len() < size + 1
        || lists.order_rows.len() < size
        || lists.order_cols.len() < size
        || lists.col_rows.len() < lists.col_starts[size] as usize
        || lists.row_cols.len() < lists.row_starts[size] as usize
}

fn malformed(size: usize, starts: &[u16], numbers: &[u16]) -> bool {
    let starts = &starts[..=size];
    let falls = starts.windows(2).any(|two| two[0] > two[1]);
    if starts[0] != 0 || falls || starts[size] as usize > TOTAL_LIMIT {
        return true;
    }
    starts.windows(2).any(|two| {
        let line = &numbers[two[0] as usize..two[1] as usize];
        line.iter().any(|&number| number as usize >= size) || !strictly_rising(line)
    })
}

fn strictly_rising(list: &[u16]) -> bool {
    list.windows(2).all(|two| two[0] < two[1])
}

fn sound(size: usize, entries: &Entries, rows: &[u16], cols: &[u16]) -> bool {
    let all: BTreeSet<u16> = (0..size as u16).collect();
    let once = |list: &[u16]| list.iter().copied().collect::<BTreeSet<u16>>() == all;
    if !once(rows) || !once(cols) {
        return false;
    }
    let place = |list: &[u16], number: usize| list.iter().position(|&at| at as usize == number);
    let row_places: Vec<_> = (0..size).map(|row| place(rows, row)).collect();
    let col_places: Vec<_> = (0..size).map(|column| place(cols, column)).collect();
    let paired = |at: usize| entries.contains(&(rows[at] as usize, cols[at] as usize));
    (0..size).all(paired)
        && entries
            .iter()
            .all(|&(row, col)| row_places[row] <= col_places[col])
}

fn no_room(call: &Call) -> bool {
    let starts = &call.lists.col_starts;
    let old_rows = starts[call.column + 1] - starts[call.column];
    let total = starts[call.size] as usize - old_rows as usize + call.new_rows.len();
    total > TOTAL_LIMIT || total > call.lists.col_rows.len() || total > call.lists.row_cols.len()
}
