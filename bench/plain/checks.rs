// Checks 1 to 8 of a replacement, over checks 1 to 5 of its register.

use super::listing::rises;
use super::places::Places;
use crate::lists::Lists;
use crate::replies::{
    COLUMN_NUMBER, DONE, MAX_SIZE, MAX_TOTAL, NEW_COLUMN, NO_ROOM, SHORT_LIST, SIZE,
};

pub fn call(places: &mut Places, m: usize, lists: &Lists, column: usize, new: &[u16]) -> usize {
    if MAX_SIZE < m {
        return SIZE;
    }
    if lists.eta.len() < m {
        return SHORT_LIST;
    }
    let refusal = places.check(m, lists);
    if refusal != DONE {
        return refusal;
    }
    if m <= column {
        return COLUMN_NUMBER;
    }
    // More than m numbers cannot rise below m, and so many may be lent that their falls could not
    // be counted.
    if m < new.len() || !rises(new) || new.last().is_some_and(|&row| m <= row.into()) {
        return NEW_COLUMN;
    }
    let starts = &lists.col_starts;
    let total =
        usize::from(starts[m]) - usize::from(starts[column + 1] - starts[column]) + new.len();
    if MAX_TOTAL
        .min(lists.col_rows.len())
        .min(lists.row_cols.len())
        < total
    {
        return NO_ROOM;
    }
    DONE
}
