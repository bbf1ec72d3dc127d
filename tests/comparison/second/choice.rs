// A full choice (one entry in each row and each column) by augmenting paths, breadth first: a path
// may be as long as the size, and a queue needs no deep recursion.

use crate::register::{by_column, Entries};
use std::collections::VecDeque;

struct Choice {
    row_of: Vec<Option<usize>>,
    column_of: Vec<Option<usize>>,
}

// The chosen row of each column.
pub fn full_choice(size: usize, entries: &Entries) -> Option<Vec<usize>> {
    let columns = by_column(size, entries);
    let mut choice = Choice {
        row_of: vec![None; size],
        column_of: vec![None; size],
    };
    for column in 0..size {
        if !choice.augment(column, &columns) {
            return None;
        }
    }
    choice.row_of.into_iter().collect()
}

impl Choice {
    // Finds the column a row, where needed by giving another row to columns that have one.
    fn augment(&mut self, column: usize, columns: &[Vec<usize>]) -> bool {
        let mut asked_by = vec![None; columns.len()];
        let mut waiting = VecDeque::from([column]);
        while let Some(asking) = waiting.pop_front() {
            for &row in &columns[asking] {
                if asked_by[row].is_some() {
                    continue;
                }
                asked_by[row] = Some(asking);
                match self.column_of[row] {
                    Some(holder) => waiting.push_back(holder),
                    None => {
                        self.hand_over(row, &asked_by);
                        return true;
                    }
                }
            }
        }
        false
    }

    // Goes the path back from its free row: each column takes the row it asked for and leaves its
    // own to the column that asked for that one. Only the path's first column has none to leave.
    fn hand_over(&mut self, free: usize, asked_by: &[Option<usize>]) {
        let mut going = Some(free);
        while let Some(row) = going {
            let taker = asked_by[row].expect("every row of the path was asked for");
            going = self.row_of[taker];
            self.row_of[taker] = Some(row);
            self.column_of[row] = Some(taker);
        }
    }
}
