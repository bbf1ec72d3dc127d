// Random sound starts: each column has its own row and some of the rows before it.

use crate::dice::Dice;
use crate::texts;

type Columns = Vec<Vec<usize>>;

pub fn any(dice: &mut Dice, size: usize) -> Columns {
    if dice.in_hundred(10) {
        return texts::chain(size);
    }
    let chances = dice.pick(&[0, 5, 15, 30, 50, 80, 100]);
    let column = |column: usize| {
        let before: Vec<usize> = (0..column).collect();
        let mut rows = dice.some_of(&before, chances);
        rows.push(column);
        rows
    };
    (0..size).map(column).collect()
}

// Exactly so many entries.
pub fn of_total(dice: &mut Dice, size: usize, total: usize) -> Columns {
    let mut columns = texts::diagonal(size);
    let mut wanting = total - size;
    while wanting > 0 {
        let column = 1 + dice.below(size - 1);
        let row = dice.below(column);
        if let Err(place) = columns[column].binary_search(&row) {
            columns[column].insert(place, row);
            wanting -= 1;
        }
    }
    columns
}
