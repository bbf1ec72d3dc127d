// Reach(c) of a register: c with all columns that can be come to from it, breadth first.

use super::ways;
use crate::register::Register;
use std::collections::{BTreeSet, VecDeque};

pub fn reach(register: &Register, column: usize) -> BTreeSet<usize> {
    let ways = ways(register);
    let mut reached = BTreeSet::from([column]);
    let mut waiting = VecDeque::from([column]);
    while let Some(from) = waiting.pop_front() {
        for &to in &ways[from] {
            if reached.insert(to) {
                waiting.push_back(to);
            }
        }
    }
    reached
}
