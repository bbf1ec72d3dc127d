// Reply 1: the size is 0 or over 1,000, also where its lower bits would be a good size.

use super::{damage, Damage};
use crate::calls::Case;

pub const ALL: &[Damage] = &[
    damage("size 0", |case, _| set(case, 0)),
    damage("size 1,001", |case, _| set(case, 1_001)),
    damage("size over 1,000", |case, dice| {
        set(case, 1_001 + dice.below(64_535))
    }),
    damage("size round 16 bits", |case, _| {
        set(case, (1 << 16) + case.register.size)
    }),
    damage("size round 32 bits", |case, _| {
        set(case, (1 << 32) + case.register.size)
    }),
    damage("size in the top bit", |case, _| {
        set(case, (1 << 63) + case.register.size)
    }),
    damage("greatest size", |case, _| set(case, usize::MAX)),
];

fn set(case: &mut Case, size: usize) -> bool {
    case.call.size = size;
    true
}
