// The numbers of include/scrollbobbin.h: limits, refusals and verdicts; and what a replacement
// replies.

pub const MAX_SIZE: usize = 1_000;
pub const MAX_TOTAL: usize = 12_000;

pub const DONE: usize = 0;
pub const SIZE: usize = 1;
pub const SHORT_LIST: usize = 2;
pub const MALFORMED_LISTING: usize = 3;
pub const LISTINGS_DIFFER: usize = 4;
pub const ORDER_UNSOUND: usize = 5;
pub const COLUMN_NUMBER: usize = 6;
pub const NEW_COLUMN: usize = 7;
pub const NO_ROOM: usize = 8;
pub const SHEET_CUT: usize = 9;
pub const SHEET_NUMBER: usize = 10;
pub const SHEET_RANGE: usize = 11;
pub const SHEET_SURPLUS: usize = 12;

pub const SINGULAR: usize = 100;
pub const PERMUTED: usize = 101;
pub const ELIMINATION: usize = 102;

#[derive(Clone, Copy, Debug, PartialEq)]
pub struct Reply {
    pub number: usize,
    pub bump: usize,
    pub eta_count: usize,
}

// Bump and eta count are 0 in every reply but ELIMINATION.
pub fn bare(number: usize) -> Reply {
    Reply {
        number,
        bump: 0,
        eta_count: 0,
    }
}
