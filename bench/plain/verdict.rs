// The verdict. A full choice of the spiked pattern is a way from the column through the rows to a
// new row: where there is none it is SINGULAR, where there is one PERMUTED, and else ELIMINATION.

use super::listing::part;
use super::places::Places;
use super::search::{Search, ON_WAY, UNREACHED};
use super::{MASK, ROOM};
use crate::lists::Lists;

pub enum Verdict {
    Singular,
    Permuted,
    Elimination,
}

pub fn judge(
    search: &mut Search,
    places: &Places,
    lists: &Lists,
    place: usize,
    new: &[u16],
) -> Verdict {
    // Nothing before the column's place is reached.
    let last = match new.iter().map(|&row| places.row(row)).max() {
        Some(last) if place <= last => last,
        _ => return Verdict::Singular,
    };
    search.begin(places, place, new, last);
    match search.reached_targets(places, lists) {
        0 => Verdict::Singular,
        1 if one_way(search, places, lists) => Verdict::Permuted,
        _ => Verdict::Elimination,
    }
}

// Whether there is one way only to the target found: going back, each place of it is reached from
// one other. Then it is marked.
fn one_way(search: &mut Search, places: &Places, lists: &Lists) -> bool {
    search.way.clear();
    let mut at = search.found;
    while at != search.place {
        let col = lists.order_cols[at];
        let rows = part(&lists.col_starts, &lists.col_rows, col.into());
        let (mut ways, mut before) = (0, 0);
        for from in rows.iter().map(|&row| places.row(row)) {
            if from != at && search.marks[from & MASK] != UNREACHED {
                ways += 1;
                before = from;
            }
        }
        if ways != 1 {
            return false;
        }
        search.marks[at & MASK] = ON_WAY;
        search.way.push(at);
        at = before;
    }
    true
}

// Lays the rows of all that is reached but the column itself, in rising order, and replies how many
// they are.
pub fn eta_rows(search: &mut Search, places: &Places, m: usize, lists: &mut Lists) -> usize {
    search.rest(places, lists);
    search.marks[search.place & MASK] = UNREACHED;
    let mut rows = [0; ROOM];
    let mut count = 0;
    for row in 0..m as u16 {
        rows[count & MASK] = row;
        count += usize::from(search.marks[places.row(row) & MASK] != UNREACHED);
    }
    lists.eta[..count].copy_from_slice(&rows[..count]);
    count
}
