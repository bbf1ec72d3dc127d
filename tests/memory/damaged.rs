// Damaged registers and new columns: every damage of the comparison by itself, with the reply that
// it makes, and scratches that follow no plan.

use crate::calls::{self, Case};
use crate::cases::{call_all, of_size, want_all};
use crate::damage::{self, Damage};
use crate::dice::Dice;
use crate::group::Group;

pub fn one(group: &mut Group) {
    for reply in 1..=8 {
        for damage in damage::of_reply(reply) {
            for draw in 0..12 {
                let case = damaged(&mut group.dice(), draw, damage);
                let own = reply <= 5 && damage.name != "eta list short";
                let register = if own { reply } else { 0 };
                want_all(group, &case, [register, register, reply], damage.name);
            }
        }
    }
}

// One call in twelve is large.
fn undamaged(dice: &mut Dice, draw: usize) -> Case {
    match draw % 12 {
        0 => of_size(dice, 130),
        _ => calls::any(dice),
    }
}

// Some calls offer nothing that could be damaged so.
fn damaged(dice: &mut Dice, draw: usize, damage: &Damage) -> Case {
    loop {
        let mut case = undamaged(dice, draw);
        if (damage.work)(&mut case, dice) {
            return case;
        }
    }
}

pub fn scratched(group: &mut Group) {
    for draw in 0..1_500 {
        let mut dice = group.dice();
        let mut case = undamaged(&mut dice, draw);
        damage::scratch(&mut case, &mut dice);
        call_all(group, &case);
    }
    for reply in [1, 2, 3, 4, 5, 6, 7, 100, 101, 102] {
        group.need(&format!("replace {reply}"), 10);
    }
}
