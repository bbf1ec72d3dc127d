// Reply 6: the column number is the size or more, also where its lower bits would be a good one.

use super::{damage, Damage};
use crate::calls::Case;

pub const ALL: &[Damage] = &[
    damage("column is the size", |case, _| {
        set(case, case.register.size)
    }),
    damage("column over the size", |case, dice| {
        set(case, case.register.size + 1 + dice.below(2_000))
    }),
    damage("column round 16 bits", |case, _| {
        set(case, (1 << 16) + in_range(case))
    }),
    damage("column round 32 bits", |case, _| {
        set(case, (1 << 32) + in_range(case))
    }),
    damage("greatest column", |case, _| set(case, usize::MAX)),
];

// The column may have been damaged before.
fn in_range(case: &Case) -> usize {
    case.call.column % case.register.size
}

fn set(case: &mut Case, column: usize) -> bool {
    case.call.column = column;
    true
}
