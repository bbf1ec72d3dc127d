// Changes that follow no plan: any place of any list, any length, the size, the column. They try
// what nobody thought of as a damage.

use crate::calls::Case;
use crate::dice::Dice;

pub fn scratch(case: &mut Case, dice: &mut Dice) {
    for _ in 0..1 + dice.below(3) {
        match dice.below(12) {
            0 => case.call.size = near(dice, case.register.size),
            1 => case.call.column = near(dice, case.call.column),
            2 | 3 => scratch_list(&mut case.call.new_rows, case.register.size, dice),
            _ => {
                let which = dice.below(7);
                scratch_list(case.call.lists.each()[which], case.register.size, dice);
            }
        }
    }
}

fn near(dice: &mut Dice, number: usize) -> usize {
    match dice.below(3) {
        0 => number.saturating_sub(1),
        1 => number + 1,
        _ => dice.below(14),
    }
}

fn scratch_list(list: &mut Vec<u16>, size: usize, dice: &mut Dice) {
    let place = dice.below(list.len() + 1);
    let number = if dice.in_hundred(90) {
        dice.below(size + 1)
    } else {
        dice.below(0x10000)
    };
    match dice.below(8) {
        0 => list.truncate(place),
        1 => list.push(number as u16),
        2 => list.insert(place, number as u16),
        3 if place < list.len() => _ = list.remove(place),
        4 if place + 1 < list.len() => list.swap(place, place + 1),
        _ if place < list.len() => list[place] = number as u16,
        _ => {}
    }
}
