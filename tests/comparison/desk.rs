// The library's check, look and replacement as C has them, each behind a safe function that lends
// every list with edges.

use crate::call::{Call, Lists, Outcome};
use crate::lent::Lent;

extern "C" {
    fn scrollbobbin_check(
        size: usize,
        col_starts: *const u16,
        col_starts_len: usize,
        col_rows: *const u16,
        col_rows_len: usize,
        row_starts: *const u16,
        row_starts_len: usize,
        row_cols: *const u16,
        row_cols_len: usize,
        order_rows: *const u16,
        order_rows_len: usize,
        order_cols: *const u16,
        order_cols_len: usize,
    ) -> usize;

    fn scrollbobbin_look(
        size: usize,
        col_starts: *const u16,
        col_starts_len: usize,
        col_rows: *const u16,
        col_rows_len: usize,
        column: usize,
        begin: *mut usize,
    ) -> usize;

    fn scrollbobbin_replace(
        size: usize,
        col_starts: *mut u16,
        col_starts_len: usize,
        col_rows: *mut u16,
        col_rows_len: usize,
        row_starts: *mut u16,
        row_starts_len: usize,
        row_cols: *mut u16,
        row_cols_len: usize,
        order_rows: *mut u16,
        order_rows_len: usize,
        order_cols: *mut u16,
        order_cols_len: usize,
        column: usize,
        new_rows: *const u16,
        new_rows_len: usize,
        eta: *mut u16,
        eta_len: usize,
        bump: *mut usize,
        eta_count: *mut usize,
    ) -> usize;
}

pub fn lend(lists: &Lists) -> [Lent<u16>; 7] {
    lists.named().map(|(_, list)| Lent::new(list))
}

pub fn take_back(lent: &[Lent<u16>; 7]) -> Lists {
    Lists {
        col_starts: lent[0].list(),
        col_rows: lent[1].list(),
        row_starts: lent[2].list(),
        row_cols: lent[3].list(),
        order_rows: lent[4].list(),
        order_cols: lent[5].list(),
        eta: lent[6].list(),
    }
}

pub fn replace(call: &Call) -> Outcome {
    let mut lent = lend(&call.lists);
    let mut new_rows = Lent::new(&call.new_rows);
    // Both counts are always written; rubbish in them beforehand shows where they are not.
    let (mut bump, mut eta_count) = (usize::MAX - 6, usize::MAX - 9);
    let reply = unsafe { raw_replace(call, &mut lent, &mut new_rows, &mut bump, &mut eta_count) };
    let kept = lent.iter().all(Lent::edges_kept) && new_rows.edges_kept();
    let spilled = !kept || new_rows.list() != call.new_rows;
    Outcome {
        reply,
        bump,
        eta_count,
        lists: take_back(&lent),
        spilled,
    }
}

unsafe fn raw_replace(
    call: &Call,
    lent: &mut [Lent<u16>; 7],
    new_rows: &mut Lent<u16>,
    bump: &mut usize,
    eta_count: &mut usize,
) -> usize {
    let [a, b, c, d, e, f, eta] = lent;
    scrollbobbin_replace(
        call.size,
        a.at(),
        a.len,
        b.at(),
        b.len,
        c.at(),
        c.len,
        d.at(),
        d.len,
        e.at(),
        e.len,
        f.at(),
        f.len,
        call.column,
        new_rows.at(),
        new_rows.len,
        eta.at(),
        eta.len,
        bump,
        eta_count,
    )
}

// The reply, and whether all lists are as they were.
pub fn check(size: usize, lists: &Lists) -> (usize, bool) {
    let mut lent = lend(lists);
    let [a, b, c, d, e, f, _] = &mut lent;
    let reply = unsafe {
        scrollbobbin_check(
            size,
            a.at(),
            a.len,
            b.at(),
            b.len,
            c.at(),
            c.len,
            d.at(),
            d.len,
            e.at(),
            e.len,
            f.at(),
            f.len,
        )
    };
    (
        reply,
        take_back(&lent) == *lists && lent.iter().all(Lent::edges_kept),
    )
}

// Where the part begins and how long it is.
pub fn look(size: usize, starts: &[u16], rows: &[u16], column: usize) -> (usize, usize) {
    let (mut starts, mut rows) = (Lent::new(starts), Lent::new(rows));
    let mut begin = usize::MAX - 6;
    let length = unsafe {
        let (a, b) = (starts.at(), rows.at());
        scrollbobbin_look(size, a, starts.len, b, rows.len, column, &mut begin)
    };
    (begin, length)
}
