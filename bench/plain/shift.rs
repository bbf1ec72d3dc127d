// The change of the order. Only the places from the column's own to the last new row's can change,
// and what is reached tells which order is first in the dictionary.

use super::search::{Search, REACHED, UNREACHED};
use super::MASK;
use crate::lists::Lists;

// First come the columns that are not reached, as they stand, and among them the column itself, as
// soon as its new rows but the found one have gone; then the way to the found row backwards, each
// column with the row before it; then the rest of the reached.
pub fn permute(search: &mut Search, lists: &mut Lists) {
    let Search {
        place, last, found, ..
    } = *search;
    let (rows, cols) = (&mut lists.order_rows, &mut lists.order_cols);
    let other = |at: &usize| *at != found && search.targets[at & MASK];
    let after = (place..=last).rev().find(other).unwrap_or(place);
    let later = &mut search.later;
    later.clear();
    for (k, &at) in search.way.iter().enumerate() {
        let before = *search.way.get(k + 1).unwrap_or(&place);
        later.push((rows[before], cols[at]));
    }
    let column = (rows[found], cols[place]);
    let mut to = place;
    for at in place..=last {
        let pair = (rows[at], cols[at]);
        match search.marks[at & MASK] {
            UNREACHED => {
                (rows[to], cols[to]) = pair;
                to += 1;
            }
            REACHED if at != place => later.push(pair),
            _ => {}
        }
        if at == after {
            (rows[to], cols[to]) = column;
            to += 1;
        }
    }
    for (k, &pair) in later.iter().enumerate() {
        (rows[to + k], cols[to + k]) = pair;
    }
}

// The pair at a place goes to the last.
pub fn to_last(m: usize, lists: &mut Lists, place: usize) {
    for list in [&mut lists.order_rows, &mut lists.order_cols] {
        let number = list[place];
        list.copy_within(place + 1..m, place);
        list[m - 1] = number;
    }
}
