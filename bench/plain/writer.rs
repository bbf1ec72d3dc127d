// The sheet writer. The sheet is made in a list of its own, both groups of a number written at
// once, and goes into the caller's bytes when its length is known.

use crate::lists::Lists;
use crate::replies::{DONE, MAX_SIZE, MAX_TOTAL, NO_ROOM};

// Two bytes for the size, for each count, for each entry and for each row and column of the order,
// and one that the last number may write in vain.
const LONGEST: usize = 2 * (1 + 3 * MAX_SIZE + MAX_TOTAL) + 1;

pub struct Writer {
    bytes: Vec<u8>,
}

impl Writer {
    pub fn new() -> Writer {
        Writer {
            bytes: vec![0; LONGEST],
        }
    }

    // The sheet of a register that has passed its checks.
    pub fn write(&mut self, m: usize, lists: &Lists, bytes: &mut [u8]) -> (usize, usize) {
        let mut end = self.put(0, m as u16);
        for part in lists.col_starts[..=m].windows(2) {
            end = self.put(end, part[1] - part[0]);
            let mut least = 0;
            for &row in &lists.col_rows[part[0].into()..part[1].into()] {
                end = self.put(end, row - least);
                least = row + 1;
            }
        }
        for (&row, &col) in lists.order_rows[..m].iter().zip(&lists.order_cols) {
            end = self.put(end, row);
            end = self.put(end, col);
        }
        match bytes.get_mut(..end) {
            None => (NO_ROOM, 0),
            Some(head) => {
                head.copy_from_slice(&self.bytes[..end]);
                (DONE, end)
            }
        }
    }

    fn put(&mut self, at: usize, number: u16) -> usize {
        let two = u8::from(127 < number);
        self.bytes[at..at + 2]
            .copy_from_slice(&[number as u8 & 127 | two << 7, (number >> 7) as u8]);
        at + 1 + usize::from(two)
    }
}
