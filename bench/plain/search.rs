// The search for what a column reaches, by places: from each place one goes on to the columns of
// its row. The verdict wants it up to the last new row only, and the eta rows want all of it.

use super::listing::part;
use super::places::Places;
use super::{MASK, ROOM};
use crate::lists::Lists;

pub const UNREACHED: u8 = 0;
pub const REACHED: u8 = 1;
pub const ON_WAY: u8 = 2;

// Marks are by place, and so are targets, the places of the new rows. The way holds the places from
// the found target back to the first after the column's own; `later` is scratch for pairs.
pub struct Search {
    pub place: usize,
    pub last: usize,
    pub found: usize,
    pub way: Vec<usize>,
    pub later: Vec<(u16, u16)>,
    pub marks: [u8; ROOM],
    pub targets: [bool; ROOM],
    near: Queue,
    far: Queue,
}

impl Search {
    pub fn new() -> Search {
        Search {
            place: 0,
            last: 0,
            found: 0,
            way: Vec::with_capacity(ROOM),
            later: Vec::with_capacity(ROOM),
            marks: [UNREACHED; ROOM],
            targets: [false; ROOM],
            near: Queue::new(),
            far: Queue::new(),
        }
    }

    // From the column's place, with the new rows as targets, `last` being the greatest of their
    // places.
    pub fn begin(&mut self, places: &Places, place: usize, new: &[u16], last: usize) {
        (self.place, self.last) = (place, last);
        self.targets = [false; ROOM];
        for &row in new {
            self.targets[places.row(row) & MASK] = true;
        }
        self.marks = [UNREACHED; ROOM];
        self.marks[place & MASK] = REACHED;
        self.near.empty();
        self.far.empty();
        self.near.push_if(true, place);
    }

    // How many targets are reached, counted to two; one of them is found. What lies past the last
    // is put by.
    pub fn reached_targets(&mut self, places: &Places, lists: &Lists) -> usize {
        let mut count = 0;
        while let Some(place) = self.near.next() {
            if self.targets[place & MASK] {
                self.found = place;
                count += 1;
            }
            for &col in row_at(lists, place) {
                let to = places.col(col);
                let fresh = self.mark(to);
                self.near.push_if(fresh && to <= self.last, to);
                self.far.push_if(fresh && self.last < to, to);
            }
            if count == 2 {
                break;
            }
        }
        count
    }

    // Whatever is still to be reached.
    pub fn rest(&mut self, places: &Places, lists: &Lists) {
        while let Some(place) = self.near.next().or_else(|| self.far.next()) {
            for &col in row_at(lists, place) {
                let to = places.col(col);
                let fresh = self.mark(to);
                self.near.push_if(fresh, to);
            }
        }
    }

    fn mark(&mut self, place: usize) -> bool {
        let mark = &mut self.marks[place & MASK];
        let fresh = *mark == UNREACHED;
        *mark = REACHED;
        fresh
    }
}

// Places to go on from. First come, first served: the next one does not hang on what the row before
// has just brought.
struct Queue {
    places: [u16; ROOM],
    head: usize,
    end: usize,
}

impl Queue {
    fn new() -> Queue {
        Queue {
            places: [0; ROOM],
            head: 0,
            end: 0,
        }
    }

    fn empty(&mut self) {
        (self.head, self.end) = (0, 0);
    }

    // The place is written in any case and stays where it is wanted: no branch hangs on that.
    fn push_if(&mut self, wanted: bool, place: usize) {
        self.places[self.end & MASK] = place as u16;
        self.end += usize::from(wanted);
    }

    fn next(&mut self) -> Option<usize> {
        if self.head == self.end {
            return None;
        }
        let place = self.places[self.head & MASK];
        self.head += 1;
        Some(place.into())
    }
}

fn row_at(lists: &Lists, place: usize) -> &[u16] {
    let row = lists.order_rows[place];
    part(&lists.row_starts, &lists.row_cols, row.into())
}
