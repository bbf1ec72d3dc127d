// The chosen pairs as a directed graph: without a cycle there is a triangular form, and the first
// order is the least topological order. A pair is named by its column.

use crate::register::Entries;
use std::cmp::Reverse;
use std::collections::BinaryHeap;

// For each pair the pairs that must come after it: an entry (row of a, column of b) puts a before
// b.
pub fn arrows(chosen: &[usize], entries: &Entries) -> Vec<Vec<usize>> {
    let mut pair_of_row = vec![0; chosen.len()];
    for (column, &row) in chosen.iter().enumerate() {
        pair_of_row[row] = column;
    }
    let mut after = vec![Vec::new(); chosen.len()];
    for &(row, column) in entries {
        if pair_of_row[row] != column {
            after[pair_of_row[row]].push(column);
        }
    }
    after
}

#[derive(Clone, Copy, PartialEq)]
enum State {
    New,
    Open,
    Done,
}

// Depth first with a list of open pairs in place of recursion: a chain is as deep as the size.
pub fn has_cycle(after: &[Vec<usize>]) -> bool {
    let mut states = vec![State::New; after.len()];
    (0..after.len()).any(|pair| states[pair] == State::New && cycle_from(pair, after, &mut states))
}

fn cycle_from(first: usize, after: &[Vec<usize>], states: &mut [State]) -> bool {
    let mut open = vec![(first, 0)];
    states[first] = State::Open;
    while let Some((pair, gone)) = open.pop() {
        let Some(&next) = after[pair].get(gone) else {
            states[pair] = State::Done;
            continue;
        };
        open.push((pair, gone + 1));
        match states[next] {
            State::Open => return true,
            State::Done => {}
            State::New => {
                states[next] = State::Open;
                open.push((next, 0));
            }
        }
    }
    false
}

// Of the pairs with none left before them always the one of the least old place.
pub fn least_order(after: &[Vec<usize>], old_places: &[usize]) -> Vec<usize> {
    let mut before = vec![0; after.len()];
    for &next in after.iter().flatten() {
        before[next] += 1;
    }
    let mut free: BinaryHeap<Reverse<(usize, usize)>> = BinaryHeap::new();
    for pair in (0..after.len()).filter(|&pair| before[pair] == 0) {
        free.push(Reverse((old_places[pair], pair)));
    }
    let mut order = Vec::new();
    while let Some(Reverse((_, pair))) = free.pop() {
        order.push(pair);
        for &next in &after[pair] {
            before[next] -= 1;
            if before[next] == 0 {
                free.push(Reverse((old_places[next], next)));
            }
        }
    }
    assert_eq!(
        order.len(),
        after.len(),
        "the graph was found to have no cycle"
    );
    order
}
