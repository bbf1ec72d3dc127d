// The library's sheet writer and sheet reader as C has them, each behind a safe function that lends
// every list and the bytes with edges.

use super::call::{ReadCall, ReadOutcome, WriteCall, WriteOutcome};
use crate::desk::{lend, take_back};
use crate::lent::Lent;

extern "C" {
    fn scrollbobbin_write_sheet(
        size: usize,
        col_starts: *const u16,
        col_starts_len: usize,
        col_rows: *const u16,
        col_rows_len: usize,
        row_starts: *const u16,
        row_starts_len: usize,
        row_cols: *const u16,
        row_cols_len: usize,
        order_rows: *const u16,
        order_rows_len: usize,
        order_cols: *const u16,
        order_cols_len: usize,
        bytes: *mut u8,
        bytes_len: usize,
        count: *mut usize,
    ) -> usize;

    fn scrollbobbin_read_sheet(
        bytes: *const u8,
        bytes_len: usize,
        col_starts: *mut u16,
        col_starts_len: usize,
        col_rows: *mut u16,
        col_rows_len: usize,
        row_starts: *mut u16,
        row_starts_len: usize,
        row_cols: *mut u16,
        row_cols_len: usize,
        order_rows: *mut u16,
        order_rows_len: usize,
        order_cols: *mut u16,
        order_cols_len: usize,
        size: *mut usize,
    ) -> usize;
}

// The count and the size are always written; rubbish in them beforehand shows where they are not.
const RUBBISH: usize = usize::MAX - 6;

pub fn write(call: &WriteCall) -> WriteOutcome {
    let mut lent = lend(&call.lists);
    let mut bytes = Lent::new(&call.bytes);
    let mut count = RUBBISH;
    let reply = unsafe { raw_write(call.size, &mut lent, &mut bytes, &mut count) };
    let kept = lent.iter().all(Lent::edges_kept) && bytes.edges_kept();
    WriteOutcome {
        reply,
        count,
        bytes: bytes.list(),
        spilled: !kept || take_back(&lent) != call.lists,
    }
}

unsafe fn raw_write(
    size: usize,
    lent: &mut [Lent<u16>; 7],
    bytes: &mut Lent<u8>,
    count: &mut usize,
) -> usize {
    let [a, b, c, d, e, f, _] = lent;
    scrollbobbin_write_sheet(
        size,
        a.at(),
        a.len,
        b.at(),
        b.len,
        c.at(),
        c.len,
        d.at(),
        d.len,
        e.at(),
        e.len,
        f.at(),
        f.len,
        bytes.at(),
        bytes.len,
        count,
    )
}

pub fn read(call: &ReadCall) -> ReadOutcome {
    let mut lent = lend(&call.lists);
    let mut bytes = Lent::new(&call.bytes);
    let mut size = RUBBISH;
    let reply = unsafe { raw_read(&mut bytes, &mut lent, &mut size) };
    let kept = lent.iter().all(Lent::edges_kept) && bytes.edges_kept();
    ReadOutcome {
        reply,
        size,
        lists: take_back(&lent),
        spilled: !kept || bytes.list() != call.bytes,
    }
}

unsafe fn raw_read(bytes: &mut Lent<u8>, lent: &mut [Lent<u16>; 7], size: &mut usize) -> usize {
    let [a, b, c, d, e, f, _] = lent;
    scrollbobbin_read_sheet(
        bytes.at(),
        bytes.len,
        a.at(),
        a.len,
        b.at(),
        b.len,
        c.at(),
        c.len,
        d.at(),
        d.len,
        e.at(),
        e.len,
        f.at(),
        f.len,
        size,
    )
}
