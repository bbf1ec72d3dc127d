// Checks 1 to 5, which leave the places of rows and columns behind. One walk through the columns
// does most of it; which fault it was is asked only where the walk fails.

use super::listing::{parts_right, rises, starts_right};
use super::{MASK, ROOM};
use crate::lists::Lists;
use crate::replies::{
    DONE, LISTINGS_DIFFER, MALFORMED_LISTING, MAX_SIZE, ORDER_UNSOUND, SHORT_LIST, SIZE,
};

const NOWHERE: u32 = 0xFFFF;

// A row's place stands in the upper half of its number, and its cursor in the row listing in the
// lower half.
pub struct Places {
    rows: [u32; ROOM],
    cols: [u16; ROOM],
}

impl Places {
    pub fn new() -> Places {
        Places {
            rows: [0; ROOM],
            cols: [0; ROOM],
        }
    }

    pub fn row(&self, row: u16) -> usize {
        (self.rows[usize::from(row) & MASK] >> 16) as usize
    }

    pub fn col(&self, col: u16) -> usize {
        usize::from(self.cols[usize::from(col) & MASK])
    }

    pub fn check(&mut self, m: usize, lists: &Lists) -> usize {
        if m == 0 || MAX_SIZE < m {
            return SIZE;
        }
        if !long_enough(m, lists) {
            return SHORT_LIST;
        }
        let (cs, rs) = (&lists.col_starts[..=m], &lists.row_starts[..=m]);
        let (cr, rc) = (
            &lists.col_rows[..cs[m].into()],
            &lists.row_cols[..rs[m].into()],
        );
        if !starts_right(cs) || !starts_right(rs) || !parts_right(m, cs, cr) {
            return MALFORMED_LISTING;
        }
        let entered = self.enter(m, &lists.order_rows[..m], rs);
        if !self.walk(cs, cr, rs, rc) {
            return if parts_right(m, rs, rc) {
                LISTINGS_DIFFER
            } else {
                MALFORMED_LISTING
            };
        }
        if entered && self.topped(cs, &lists.order_cols[..m]) {
            return DONE;
        }
        ORDER_UNSOUND
    }

    // Lays the row listing of columns whose rows have been counted in the row starts, each in the
    // place after its row's, and replies whether the order is sound.
    pub fn turn(&mut self, m: usize, lists: &mut Lists) -> bool {
        let mut sum = 0;
        for start in &mut lists.row_starts[..=m] {
            sum += *start;
            *start = sum;
        }
        let entered = self.enter(m, &lists.order_rows[..m], &lists.row_starts);
        let starts = &lists.col_starts[..=m];
        for (col, part) in starts.windows(2).enumerate() {
            let mut top = 0;
            for &number in &lists.col_rows[part[0].into()..part[1].into()] {
                let row = &mut self.rows[usize::from(number) & MASK];
                lists.row_cols[(*row & 0xFFFF) as usize] = col as u16;
                top = top.max(*row);
                *row += 1;
            }
            self.cols[col & MASK] = (top >> 16) as u16;
        }
        entered && self.topped(starts, &lists.order_cols[..m])
    }

    // Each row's place in the order, and its cursor at its start.
    fn enter(&mut self, m: usize, order: &[u16], starts: &[u16]) -> bool {
        for (row, &start) in self.rows.iter_mut().zip(starts) {
            *row = NOWHERE << 16 | u32::from(start);
        }
        let mut once = true;
        for (place, &number) in order.iter().enumerate() {
            let row = &mut self.rows[usize::from(number) & MASK];
            once &= usize::from(number) < m && *row >> 16 == NOWHERE;
            *row = (place as u32) << 16 | *row & 0xFFFF;
        }
        once
    }

    // Whether each entry of the columns is the next one of its row, up to the end of every row. A
    // row that passes this has its columns rising and below m.
    fn walk(&mut self, cs: &[u16], cr: &[u16], rs: &[u16], rc: &[u16]) -> bool {
        for (col, part) in cs.windows(2).enumerate() {
            let mut top = 0;
            for &number in &cr[part[0].into()..part[1].into()] {
                let row = &mut self.rows[usize::from(number) & MASK];
                let now = *row;
                if rc.get((now & 0xFFFF) as usize) != Some(&(col as u16)) {
                    return false;
                }
                top = now.max(top);
                *row = now + 1;
            }
            self.cols[col & MASK] = (top >> 16) as u16;
        }
        self.rows
            .iter()
            .zip(&rs[1..])
            .all(|(&row, &end)| row as u16 == end)
    }

    // Whether no column is empty and the last row of each stands at the column's own place; no
    // column can then stand twice.
    fn topped(&self, starts: &[u16], order: &[u16]) -> bool {
        let own =
            |(place, &col): (usize, &u16)| usize::from(col) < order.len() && self.col(col) == place;
        rises(starts) && order.iter().enumerate().all(own)
    }
}

fn long_enough(m: usize, lists: &Lists) -> bool {
    let listed = |starts: &[u16], entries: &[u16]| {
        starts
            .get(m)
            .is_some_and(|&end| usize::from(end) <= entries.len())
    };
    listed(&lists.col_starts, &lists.col_rows)
        && listed(&lists.row_starts, &lists.row_cols)
        && m <= lists.order_rows.len().min(lists.order_cols.len())
}
