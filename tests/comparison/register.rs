// A register as plain data: a set of entries (row, column) and an order. It is what the generators
// make and what the second program thinks in; lists are only made from it and read into it.

use crate::call::Lists;
use std::collections::BTreeSet;

pub type Entries = BTreeSet<(usize, usize)>;

#[derive(Clone, PartialEq)]
pub struct Register {
    pub size: usize,
    pub entries: Entries,
    pub rows: Vec<usize>,
    pub cols: Vec<usize>,
}

impl Register {
    // Of lists that passed the checks.
    pub fn read(size: usize, lists: &Lists) -> Register {
        let wide = |list: &[u16]| list[..size].iter().map(|&number| number as usize).collect();
        Register {
            size,
            entries: read_entries(size, &lists.col_starts, &lists.col_rows),
            rows: wide(&lists.order_rows),
            cols: wide(&lists.order_cols),
        }
    }

    // Lists without a spare place; the eta list is filled with a number that no row has.
    pub fn lists(&self) -> Lists {
        let (col_starts, col_rows) = listing(&by_column(self.size, &self.entries));
        let (row_starts, row_cols) = listing(&by_row(self.size, &self.entries));
        Lists {
            col_starts,
            col_rows,
            row_starts,
            row_cols,
            order_rows: narrow(&self.rows),
            order_cols: narrow(&self.cols),
            eta: vec![0xEEEE; self.size],
        }
    }

    pub fn row_places(&self) -> Vec<usize> {
        places(&self.rows)
    }

    pub fn col_places(&self) -> Vec<usize> {
        places(&self.cols)
    }

    pub fn paired_row(&self, column: usize) -> usize {
        self.rows[self.col_places()[column]]
    }

    pub fn rows_of(&self, column: usize) -> Vec<usize> {
        let in_column = self.entries.iter().filter(|entry| entry.1 == column);
        in_column.map(|entry| entry.0).collect()
    }

    pub fn has(&self, row: usize, column: usize) -> bool {
        self.entries.contains(&(row, column))
    }

    // The total with so many new rows in the column's stead, before any row is cleared.
    pub fn spiked_total(&self, column: usize, new_rows: usize) -> usize {
        self.entries.len() - self.rows_of(column).len() + new_rows
    }
}

pub fn narrow(list: &[usize]) -> Vec<u16> {
    list.iter()
        .map(|&number| u16::try_from(number).expect("a 16-bit number"))
        .collect()
}

pub fn places(list: &[usize]) -> Vec<usize> {
    let mut place_of = vec![0; list.len()];
    for (place, &number) in list.iter().enumerate() {
        place_of[number] = place;
    }
    place_of
}

pub fn read_entries(size: usize, starts: &[u16], numbers: &[u16]) -> Entries {
    let mut entries = Entries::new();
    for line in 0..size {
        for &number in &numbers[starts[line] as usize..starts[line + 1] as usize] {
            entries.insert((number as usize, line));
        }
    }
    entries
}

pub fn by_column(size: usize, entries: &Entries) -> Vec<Vec<usize>> {
    let mut columns = vec![Vec::new(); size];
    for &(row, column) in entries {
        columns[column].push(row);
    }
    columns
}

pub fn by_row(size: usize, entries: &Entries) -> Vec<Vec<usize>> {
    let mut rows = vec![Vec::new(); size];
    for &(row, column) in entries {
        rows[row].push(column);
    }
    rows
}

// The starts, and the lines one after another. A set gives each line in rising order.
pub fn listing(lines: &[Vec<usize>]) -> (Vec<u16>, Vec<u16>) {
    let mut starts = vec![0];
    let mut numbers = Vec::new();
    for line in lines {
        numbers.extend(line);
        starts.push(numbers.len());
    }
    (narrow(&starts), narrow(&numbers))
}
