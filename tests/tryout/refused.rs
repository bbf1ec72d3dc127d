// Starts that are refused with 3 or 5: every fault in every place, several at once, bad lines
// beside them, and whatever stands after a refused start.

use crate::dice::Dice;
use crate::group::Group;
use crate::puts::too_large;
use crate::starts;
use crate::texts;
use crate::trial::Trial;

const AFTER: [&str; 7] = [
    "",
    "put 0 0\n",
    "rubbish",
    "\n",
    "order 1\ncol 0 0\nput 0 0\n",
    "col 0 0\n",
    "\0\0\0",
];

// Each start has one fault or several of the sorts 3 and 5.
pub fn starts(group: &mut Group) {
    group.many(1_500, |dice| {
        let size = 1 + dice.below(7);
        let mut columns = starts::any(dice, size);
        let (three, five) = dice.pick(&[(1, 0), (0, 1), (1, 1), (1, 2), (2, 2), (0, 2)]);
        let mut known = "start REFUSED 5\n";
        for _ in 0..five {
            unsound(dice, &mut columns);
        }
        for _ in 0..three {
            malformed(dice, &mut columns);
            known = "start REFUSED 3\n";
        }
        let text = texts::start(&columns) + dice.pick(&AFTER);
        Trial::any_way(text, dice).says(known)
    });
    group.need("start REFUSED 3", 500);
    group.need("start REFUSED 5", 300);
}

// Rows below the size, rising, whose greatest is not the column's own.
fn unsound(dice: &mut Dice, columns: &mut [Vec<usize>]) {
    let size = columns.len();
    let column = dice.below(size);
    let rows = &mut columns[column];
    match dice.below(3) {
        0 => rows.clear(),
        1 if rows.last() == Some(&column) => drop(rows.pop()),
        2 if column + 1 < size => {
            rows.retain(|&row| row <= column);
            rows.push(column + 1 + dice.below(size - column - 1));
        }
        _ => rows.clear(),
    }
}

fn malformed(dice: &mut Dice, columns: &mut [Vec<usize>]) {
    let size = columns.len();
    let place = dice.below(size);
    let rows = &mut columns[place];
    match dice.below(4) {
        0 => rows.push(too_large(dice, size)),
        1 => rows.insert(0, too_large(dice, size)),
        2 if rows.len() > 1 => rows.push(rows[0]),
        _ => {
            let row = rows.pop().unwrap_or(0);
            rows.extend([row, row]);
        }
    }
}

// A bad line, or the end before the last column, is told although the start would be refused.
pub fn bad_lines(group: &mut Group) {
    group.many(600, |dice| {
        let size = 1 + dice.below(7);
        let mut columns = starts::any(dice, size);
        match dice.coin() {
            true => unsound(dice, &mut columns),
            false => malformed(dice, &mut columns),
        }
        let text = texts::start(&columns);
        let mut lines: Vec<String> = text.split_inclusive('\n').map(str::to_string).collect();
        let any = 1 + dice.below(size);
        let place = dice.pick(&[size, any]);
        let line = lines[place].trim_end().to_string();
        match dice.below(6) {
            0 => lines[place] = format!("{line} \n"),
            1 => lines[place] = format!("{line} 65536\n"),
            2 => lines[place] = format!("{line} 00\n"),
            3 => lines[place] = texts::filled(&line, 8_001) + "\n",
            4 => lines.truncate(place),
            _ => {
                lines.truncate(place);
                lines.push(line);
            }
        }
        let known = format!("bad line {}\n", place + 1);
        Trial::any_way(lines.concat(), dice).says(&known)
    });
}
