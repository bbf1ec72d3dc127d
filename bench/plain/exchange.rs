// A column exchanged in both listings, and a row cleared with it for ELIMINATION. What stands
// between two edits is moved as a whole; nothing before the first or past the new total is touched.

use super::listing::part;
use crate::lists::Lists;

// From place `at` on, in the given part, so many entries go; where `put` says so, others come.
struct Edit {
    part: usize,
    at: usize,
    gone: usize,
    put: bool,
}

#[derive(Default)]
pub struct Exchange {
    of_rows: Vec<Edit>,
    of_cols: Vec<Edit>,
    column: Vec<u16>,
    moved: Vec<u16>,
}

impl Exchange {
    // The new rows take the place of the column's. A row that is cleared has the column alone.
    pub fn column(
        &mut self,
        m: usize,
        lists: &mut Lists,
        column: usize,
        new: &[u16],
        cleared: Option<u16>,
    ) {
        self.edit_rows(lists, column, new, cleared);
        self.edit_cols(lists, column, new, cleared);
        let (rows, cols) = (&mut lists.row_cols, &mut lists.col_rows);
        let put = [column as u16];
        self.moved.clear();
        apply(
            &self.of_rows,
            &mut self.moved,
            &mut lists.row_starts[..=m],
            rows,
            &put,
        );
        self.moved.clear();
        apply(
            &self.of_cols,
            &mut self.moved,
            &mut lists.col_starts[..=m],
            cols,
            &self.column,
        );
    }

    // A row of the old column alone loses the column, and one of the new alone gets it.
    fn edit_rows(&mut self, lists: &Lists, column: usize, new: &[u16], cleared: Option<u16>) {
        let (starts, entries) = (&lists.row_starts, &lists.row_cols);
        let old = part(&lists.col_starts, &lists.col_rows, column);
        let (mut i, mut k) = (0, 0);
        self.of_rows.clear();
        while i < old.len() || k < new.len() {
            let loses = k == new.len() || i < old.len() && old[i] <= new[k];
            let gets = i == old.len() || k < new.len() && new[k] <= old[i];
            let row = if loses { old[i] } else { new[k] };
            if cleared == Some(row) {
                self.of_rows.push(whole(starts, row.into()));
            } else if loses != gets {
                self.of_rows
                    .push(one(starts, entries, row.into(), column as u16, gets));
            }
            i += usize::from(loses);
            k += usize::from(gets);
        }
    }

    // The column itself is among the cleared row's, as its pair.
    fn edit_cols(&mut self, lists: &Lists, column: usize, new: &[u16], cleared: Option<u16>) {
        let (starts, entries) = (&lists.col_starts, &lists.col_rows);
        self.column.clear();
        self.column.extend_from_slice(new);
        self.of_cols.clear();
        let Some(row) = cleared else {
            self.of_cols.push(whole(starts, column));
            return;
        };
        if let Err(at) = new.binary_search(&row) {
            self.column.insert(at, row);
        }
        for &col in part(&lists.row_starts, &lists.row_cols, row.into()) {
            let own = usize::from(col) == column;
            self.of_cols.push(match own {
                true => whole(starts, column),
                false => one(starts, entries, col.into(), row, false),
            });
        }
    }
}

fn whole(starts: &[u16], part: usize) -> Edit {
    let at = usize::from(starts[part]);
    Edit {
        part,
        at,
        gone: usize::from(starts[part + 1]) - at,
        put: true,
    }
}

// One entry comes to its place in a part, or goes from it.
fn one(starts: &[u16], entries: &[u16], k: usize, entry: u16, comes: bool) -> Edit {
    let less = part(starts, entries, k).iter().take_while(|&&x| x < entry);
    Edit {
        part: k,
        at: usize::from(starts[k]) + less.count(),
        gone: usize::from(!comes),
        put: comes,
    }
}

// The edits are by rising place; what is put is the same in each.
fn apply(
    edits: &[Edit],
    moved: &mut Vec<u16>,
    starts: &mut [u16],
    entries: &mut [u16],
    put: &[u16],
) {
    let Some(first) = edits.first().map(|edit| edit.at) else {
        return;
    };
    let m = starts.len() - 1;
    let total = usize::from(starts[m]);
    let mut from = first;
    for (k, edit) in edits.iter().enumerate() {
        moved.extend_from_slice(&entries[from..edit.at]);
        from = edit.at + edit.gone;
        if edit.put {
            moved.extend_from_slice(put);
        }
        // What has come so far, less what has gone.
        let by = (first + moved.len()).wrapping_sub(from) as u16;
        let next = edits.get(k + 1).map_or(m, |edit| edit.part);
        for start in &mut starts[edit.part + 1..=next] {
            *start = start.wrapping_add(by);
        }
    }
    let end = first + moved.len();
    if end != from {
        entries.copy_within(from..total, end);
    }
    entries[first..end].copy_from_slice(moved);
}
