// Reply 8: an entry list is one place short of the total with the new column in the old one's
// stead, though it holds the old total.

use super::{damage, Damage};
use crate::calls::Case;

pub const ALL: &[Damage] = &[
    damage("column entries without room", |case, _| {
        set_room(case, 1, 0)
    }),
    damage("row entries without room", |case, _| set_room(case, 0, 1)),
    damage("both without room", |case, _| set_room(case, 1, 1)),
];

// So many places less than needed in the one entry list and in the other.
fn set_room(case: &mut Case, less_in_columns: usize, less_in_rows: usize) -> bool {
    let register = &case.register;
    let column = case.call.column % register.size;
    let old = register.rows_of(column).len();
    // A column that fits into the old one's places needs no room, so a longer one is put in.
    if case.call.new_rows.len() <= old {
        case.call.new_rows = (0..register.size).map(|row| row as u16).collect();
    }
    if case.call.new_rows.len() <= old {
        return false;
    }
    let needed = register.spiked_total(column, case.call.new_rows.len());
    case.call.lists.col_rows.resize(needed - less_in_columns, 7);
    case.call.lists.row_cols.resize(needed - less_in_rows, 7);
    true
}
