// The sheet reader. The bytes are gone over once, into lists of its own; these go into the caller's
// where there is no fault.

use super::places::Places;
use crate::lists::Lists;
use crate::replies::{
    DONE, MAX_SIZE, MAX_TOTAL, ORDER_UNSOUND, SHEET_CUT, SHEET_NUMBER, SHEET_RANGE, SHEET_SURPLUS,
    SHORT_LIST, SIZE,
};

pub struct Reader {
    held: Lists,
}

impl Reader {
    pub fn new() -> Reader {
        let list = |length| vec![0; length];
        Reader {
            held: Lists {
                col_starts: list(MAX_SIZE + 1),
                col_rows: list(MAX_TOTAL),
                row_starts: list(MAX_SIZE + 1),
                row_cols: list(MAX_TOTAL),
                order_rows: list(MAX_SIZE),
                order_cols: list(MAX_SIZE),
                eta: list(0),
            },
        }
    }

    pub fn read(&mut self, places: &mut Places, bytes: &[u8], lists: &mut Lists) -> (usize, usize) {
        match self.numbers(&mut Numbers { bytes, at: 0 }) {
            Err(number) => (number, 0),
            Ok(m) if !takes(lists, m, self.held.col_starts[m].into()) => (SHORT_LIST, 0),
            Ok(m) if !places.turn(m, &mut self.held) => (ORDER_UNSOUND, 0),
            Ok(m) => {
                hand_over(m, &self.held, lists);
                (DONE, m)
            }
        }
    }

    // All numbers of the sheet. The row starts are counts at first, of the row before.
    fn numbers(&mut self, numbers: &mut Numbers) -> Result<usize, usize> {
        let m = match numbers.next()? {
            size @ 1..=MAX_SIZE => size,
            _ => return Err(SIZE),
        };
        let held = &mut self.held;
        held.row_starts[..=m].fill(0);
        let mut total = 0;
        for col in 0..m {
            let count = numbers.below(m.min(MAX_TOTAL - total) + 1)?;
            let mut least = 0;
            for entry in &mut held.col_rows[total..total + count] {
                let row = least + numbers.below(m - least)?;
                held.row_starts[row + 1] += 1;
                *entry = row as u16;
                least = row + 1;
            }
            total += count;
            held.col_starts[col + 1] = total as u16;
        }
        for (row, col) in held.order_rows[..m].iter_mut().zip(&mut held.order_cols) {
            *row = numbers.below(m)? as u16;
            *col = numbers.below(m)? as u16;
        }
        if numbers.at < numbers.bytes.len() {
            return Err(SHEET_SURPLUS);
        }
        Ok(m)
    }
}

struct Numbers<'a> {
    bytes: &'a [u8],
    at: usize,
}

impl Numbers<'_> {
    fn below(&mut self, limit: usize) -> Result<usize, usize> {
        match self.next()? {
            number if number < limit => Ok(number),
            _ => Err(SHEET_RANGE),
        }
    }

    // A number of one group or two is had without a branch on which it is.
    fn next(&mut self) -> Result<usize, usize> {
        if let Some(&[a, b]) = self.bytes.get(self.at..self.at + 2) {
            let two = usize::from(a >> 7);
            if two == 0 || b.wrapping_sub(1) < 127 {
                self.at += 1 + two;
                return Ok(usize::from(a & 127) | usize::from(b) * two << 7);
            }
        }
        self.any()
    }

    // A number of any length, by the rules.
    fn any(&mut self) -> Result<usize, usize> {
        let mut number = 0;
        for group in 0..3 {
            let byte = usize::from(*self.bytes.get(self.at).ok_or(SHEET_CUT)?);
            self.at += 1;
            number |= (byte & 127) << (7 * group);
            if byte < 128 {
                return if byte == 0 && 0 < group {
                    Err(SHEET_NUMBER)
                } else {
                    Ok(number)
                };
            }
        }
        Err(SHEET_NUMBER)
    }
}

fn takes(lists: &Lists, m: usize, total: usize) -> bool {
    m < lists.col_starts.len().min(lists.row_starts.len())
        && total <= lists.col_rows.len().min(lists.row_cols.len())
        && m <= lists.order_rows.len().min(lists.order_cols.len())
}

fn hand_over(m: usize, held: &Lists, lists: &mut Lists) {
    let total = usize::from(held.col_starts[m]);
    lists.col_starts[..=m].copy_from_slice(&held.col_starts[..=m]);
    lists.col_rows[..total].copy_from_slice(&held.col_rows[..total]);
    lists.row_starts[..=m].copy_from_slice(&held.row_starts[..=m]);
    lists.row_cols[..total].copy_from_slice(&held.row_cols[..total]);
    lists.order_rows[..m].copy_from_slice(&held.order_rows[..m]);
    lists.order_cols[..m].copy_from_slice(&held.order_cols[..m]);
}
