// Random registers: an upper triangle with a full diagonal over the places, in random orders of
// rows and columns.

use crate::dice::Dice;
use crate::register::{Entries, Register};

// Mostly small, where every case is soon met; some larger.
pub fn size(dice: &mut Dice) -> usize {
    match dice.below(20) {
        0 => 13 + dice.below(48),
        1..=5 => 1 + dice.below(4),
        _ => 1 + dice.below(12),
    }
}

pub fn any(dice: &mut Dice, size: usize) -> Register {
    if dice.in_hundred(15) {
        return chain(dice, size);
    }
    let chances = dice.pick(&[0, 3, 10, 20, 35, 50, 80, 100]);
    let mut over = Vec::new();
    for late in 0..size {
        for early in 0..late {
            if dice.in_hundred(chances) {
                over.push((early, late));
            }
        }
    }
    of_places(dice, size, over)
}

// An entry from each place to the next, so that reach goes all the way; half the time one of these
// entries is exchanged for another over the diagonal.
pub fn chain(dice: &mut Dice, size: usize) -> Register {
    let mut over: Vec<(usize, usize)> = (1..size).map(|place| (place - 1, place)).collect();
    if dice.coin() && size > 2 {
        over.swap_remove(dice.below(size - 1));
        let late = 2 + dice.below(size - 2);
        over.push((dice.below(late), late));
    }
    of_places(dice, size, over)
}

// Exactly so many entries.
pub fn of_total(dice: &mut Dice, size: usize, total: usize) -> Register {
    let mut over = Entries::new();
    while size + over.len() < total {
        let late = 1 + dice.below(size - 1);
        over.insert((dice.below(late), late));
    }
    of_places(dice, size, over.into_iter().collect())
}

// The entries over the diagonal are given by places. One order in five is t:t.
pub fn of_places(dice: &mut Dice, size: usize, over: Vec<(usize, usize)>) -> Register {
    let by_number = dice.in_hundred(20);
    let order = |dice: &mut Dice| match by_number {
        true => (0..size).collect(),
        false => dice.shuffled(size),
    };
    let (rows, cols) = (order(dice), order(dice));
    let all = over
        .into_iter()
        .chain((0..size).map(|place| (place, place)));
    let entries = all
        .map(|(early, late): (usize, usize)| (rows[early], cols[late]))
        .collect();
    Register {
        size,
        entries,
        rows,
        cols,
    }
}
