// The seven lists after an accepted call, built afresh: what the register uses, then in each place
// beyond what it held before the call.

use crate::call::Lists;
use crate::register::{narrow, Register};

pub fn over<T: Clone>(new: Vec<T>, old: &[T]) -> Vec<T> {
    let beyond = old.get(new.len()..).unwrap_or(&[]);
    [&new, beyond].concat()
}

pub fn lists(register: &Register, eta: &[usize], old: &Lists) -> Lists {
    let new = register.lists();
    Lists {
        col_starts: over(new.col_starts, &old.col_starts),
        col_rows: over(new.col_rows, &old.col_rows),
        row_starts: over(new.row_starts, &old.row_starts),
        row_cols: over(new.row_cols, &old.row_cols),
        order_rows: over(new.order_rows, &old.order_rows),
        order_cols: over(new.order_cols, &old.order_cols),
        eta: over(narrow(eta), &old.eta),
    }
}
