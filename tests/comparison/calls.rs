// Calls that pass every check: a random register in lists with or without spare places, a column
// and its new rows.

use crate::call::Call;
use crate::columns;
use crate::dice::Dice;
use crate::register::Register;
use crate::registers;

// A call with the register it was made from.
pub struct Case {
    pub register: Register,
    pub call: Call,
}

pub fn any(dice: &mut Dice) -> Case {
    let size = registers::size(dice);
    let register = registers::any(dice, size);
    let column = some_column(dice, &register);
    let new_rows = columns::any(dice, &register, column);
    let call = lend(dice, &register, column, new_rows);
    Case { register, call }
}

// Early places are taken more often: a late column reaches little, and little can come of it.
pub fn some_column(dice: &mut Dice, register: &Register) -> usize {
    let place = dice.below(register.size).min(dice.below(register.size));
    register.cols[place]
}

// Both entry lists have room for the old and for the new column, and often not a place more.
pub fn lend(dice: &mut Dice, register: &Register, column: usize, new_rows: Vec<u16>) -> Call {
    let mut lists = register.lists();
    let total = register.entries.len();
    let more = register
        .spiked_total(column, new_rows.len())
        .saturating_sub(total);
    lists.col_rows.extend(dice.rubbish(more));
    lists.row_cols.extend(dice.rubbish(more));
    lists.eta = dice.rubbish(register.size);
    for list in lists.each() {
        let spare = spare(dice);
        list.extend(dice.rubbish(spare));
    }
    Call {
        size: register.size,
        column,
        new_rows,
        lists,
    }
}

pub fn spare(dice: &mut Dice) -> usize {
    match dice.below(4) {
        0 | 1 => 0,
        2 => 1 + dice.below(4),
        _ => 1 + dice.below(40),
    }
}
