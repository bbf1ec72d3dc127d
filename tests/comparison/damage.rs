// Damage of every sort in the build paper's table of replies. Done to a call that passes every
// check, each damage makes exactly the reply it is listed under; two or three together try the
// order of the checks.

mod column;
mod differ;
mod listing;
mod new_rows;
mod order;
mod room;
mod scratch;
mod short;
mod size;

use crate::calls::Case;
use crate::dice::Dice;

pub use scratch::scratch;

// The work says false where the call offers nothing to damage so.
#[derive(Clone, Copy)]
pub struct Damage {
    pub name: &'static str,
    pub work: fn(&mut Case, &mut Dice) -> bool,
}

// The damages that make one reply, from 1 to 8.
pub fn of_reply(reply: usize) -> &'static [Damage] {
    match reply {
        1 => size::ALL,
        2 => short::ALL,
        3 => listing::ALL,
        4 => differ::ALL,
        5 => order::ALL,
        6 => column::ALL,
        7 => new_rows::ALL,
        8 => room::ALL,
        _ => panic!("a refusal is 1 to 8"),
    }
}

const fn damage(name: &'static str, work: fn(&mut Case, &mut Dice) -> bool) -> Damage {
    Damage { name, work }
}

// An earlier damage may have cut the place off.
fn put(list: &mut [u16], place: usize, number: usize) -> bool {
    let number = number.min(0xFFFF) as u16;
    list.get_mut(place).map(|held| *held = number).is_some()
}

// The first number that is too large, one a little larger, or one near the greatest of 16 bits.
fn too_large(dice: &mut Dice, first: usize) -> usize {
    match dice.below(3) {
        0 => first,
        1 => first + 1 + dice.below(20),
        _ => 0xFFFF - dice.below(3),
    }
}
