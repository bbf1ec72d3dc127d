// Random puts: new columns of every kind for the register as it stands, and among them every sort
// that is refused.

use crate::columns;
use crate::dice::Dice;
use crate::register::Register;

pub struct Put {
    pub column: usize,
    pub rows: Vec<usize>,
}

pub fn any(dice: &mut Dice, register: &Register) -> Put {
    let size = register.size;
    // Early places are taken more often: a late column reaches little.
    let place = dice.below(size).min(dice.below(size));
    let mut put = match dice.below(10) {
        0 | 1 => loose(dice, size),
        _ => {
            let column = register.cols[place];
            let rows = columns::any(dice, register, column);
            let rows = rows.into_iter().map(usize::from).collect();
            Put { column, rows }
        }
    };
    if dice.in_hundred(15) {
        spoil_rows(dice, &mut put, size);
    }
    if dice.in_hundred(8) {
        put.column = too_large(dice, size);
    }
    put
}

// A thin column for large sizes, mostly with its own row; no register is asked.
pub fn loose(dice: &mut Dice, size: usize) -> Put {
    let column = dice.below(size);
    let mut rows: Vec<usize> = (0..dice.below(6)).map(|_| dice.below(size)).collect();
    if dice.in_hundred(70) {
        rows.push(column);
    }
    rows.sort();
    rows.dedup();
    Put { column, rows }
}

fn spoil_rows(dice: &mut Dice, put: &mut Put, size: usize) {
    let rows = &mut put.rows;
    match dice.below(5) {
        0 => rows.push(too_large(dice, size)),
        1 => rows.insert(0, too_large(dice, size)),
        2 => rows.reverse(),
        3 => {
            let place = dice.below(rows.len() + 1);
            rows.insert(place, dice.below(size));
        }
        _ => {
            let place = dice.below(rows.len() + 1);
            let row = rows.get(place).copied().unwrap_or(0);
            rows.insert(place, row);
        }
    }
}

// The first number that is too large, one a little larger, one that would pass if its upper bits
// went, or one near the greatest of 16 bits.
pub fn too_large(dice: &mut Dice, size: usize) -> usize {
    match dice.below(4) {
        0 => size,
        1 => size + 1 + dice.below(20),
        2 => 256 * (4 + dice.below(250)) + dice.below(size.min(256)),
        _ => 0xFFFF - dice.below(3),
    }
}
