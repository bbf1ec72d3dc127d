// The library's functions as include/scrollbobbin.h declares them, each behind a safe function over
// the lent lists.

use crate::lists::Lists;
use crate::replies::Reply;

#[rustfmt::skip]
extern "C" {
    fn scrollbobbin_check(
        size: usize,
        col_starts: *const u16, col_starts_length: usize, col_rows: *const u16, col_rows_length: usize,
        row_starts: *const u16, row_starts_length: usize, row_cols: *const u16, row_cols_length: usize,
        order_rows: *const u16, order_rows_length: usize, order_cols: *const u16, order_cols_length: usize,
    ) -> usize;

    fn scrollbobbin_replace(
        size: usize,
        col_starts: *mut u16, col_starts_length: usize, col_rows: *mut u16, col_rows_length: usize,
        row_starts: *mut u16, row_starts_length: usize, row_cols: *mut u16, row_cols_length: usize,
        order_rows: *mut u16, order_rows_length: usize, order_cols: *mut u16, order_cols_length: usize,
        column: usize, new_rows: *const u16, new_rows_length: usize, eta: *mut u16, eta_length: usize,
        bump: *mut usize, eta_count: *mut usize,
    ) -> usize;

    fn scrollbobbin_write_sheet(
        size: usize,
        col_starts: *const u16, col_starts_length: usize, col_rows: *const u16, col_rows_length: usize,
        row_starts: *const u16, row_starts_length: usize, row_cols: *const u16, row_cols_length: usize,
        order_rows: *const u16, order_rows_length: usize, order_cols: *const u16, order_cols_length: usize,
        bytes: *mut u8, bytes_length: usize, count: *mut usize,
    ) -> usize;

    fn scrollbobbin_read_sheet(
        bytes: *const u8, bytes_length: usize,
        col_starts: *mut u16, col_starts_length: usize, col_rows: *mut u16, col_rows_length: usize,
        row_starts: *mut u16, row_starts_length: usize, row_cols: *mut u16, row_cols_length: usize,
        order_rows: *mut u16, order_rows_length: usize, order_cols: *mut u16, order_cols_length: usize,
        size: *mut usize,
    ) -> usize;
}

#[rustfmt::skip]
pub fn check(size: usize, lists: &Lists) -> usize {
    let Lists { col_starts: a, col_rows: b, row_starts: c, row_cols: d, order_rows: e, order_cols: f, .. } = lists;
    unsafe {
        scrollbobbin_check(
            size, a.as_ptr(), a.len(), b.as_ptr(), b.len(), c.as_ptr(), c.len(), d.as_ptr(), d.len(),
            e.as_ptr(), e.len(), f.as_ptr(), f.len(),
        )
    }
}

#[rustfmt::skip]
pub fn replace(size: usize, lists: &mut Lists, column: usize, new_rows: &[u16]) -> Reply {
    let Lists { col_starts: a, col_rows: b, row_starts: c, row_cols: d, order_rows: e, order_cols: f, eta } = lists;
    let (mut bump, mut eta_count) = (usize::MAX, usize::MAX);
    let number = unsafe {
        scrollbobbin_replace(
            size, a.as_mut_ptr(), a.len(), b.as_mut_ptr(), b.len(), c.as_mut_ptr(), c.len(), d.as_mut_ptr(), d.len(),
            e.as_mut_ptr(), e.len(), f.as_mut_ptr(), f.len(),
            column, new_rows.as_ptr(), new_rows.len(), eta.as_mut_ptr(), eta.len(), &mut bump, &mut eta_count,
        )
    };
    Reply { number, bump, eta_count }
}

// The reply's number, and the count of bytes.
#[rustfmt::skip]
pub fn write_sheet(size: usize, lists: &Lists, bytes: &mut [u8]) -> (usize, usize) {
    let Lists { col_starts: a, col_rows: b, row_starts: c, row_cols: d, order_rows: e, order_cols: f, .. } = lists;
    let mut count = usize::MAX;
    let number = unsafe {
        scrollbobbin_write_sheet(
            size, a.as_ptr(), a.len(), b.as_ptr(), b.len(), c.as_ptr(), c.len(), d.as_ptr(), d.len(),
            e.as_ptr(), e.len(), f.as_ptr(), f.len(), bytes.as_mut_ptr(), bytes.len(), &mut count,
        )
    };
    (number, count)
}

// The reply's number, and the size.
#[rustfmt::skip]
pub fn read_sheet(bytes: &[u8], lists: &mut Lists) -> (usize, usize) {
    let Lists { col_starts: a, col_rows: b, row_starts: c, row_cols: d, order_rows: e, order_cols: f, .. } = lists;
    let mut size = usize::MAX;
    let number = unsafe {
        scrollbobbin_read_sheet(
            bytes.as_ptr(), bytes.len(), a.as_mut_ptr(), a.len(), b.as_mut_ptr(), b.len(), c.as_mut_ptr(), c.len(),
            d.as_mut_ptr(), d.len(), e.as_mut_ptr(), e.len(), f.as_mut_ptr(), f.len(), &mut size,
        )
    };
    (number, size)
}
