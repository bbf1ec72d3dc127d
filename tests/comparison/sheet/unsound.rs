// Registers whose order is unsound for them, by the damages of reply 5. A sheet can be made of
// each, and its fault is found only at the very end.

use crate::calls::{self, Case};
use crate::damage;
use crate::dice::Dice;
use crate::register::Register;

pub fn any(dice: &mut Dice) -> Register {
    loop {
        let mut case = calls::any(dice);
        let damage = dice.pick(damage::of_reply(5));
        if (damage.work)(&mut case, dice) {
            let register = read(&case);
            if in_range(&register) {
                return register;
            }
        }
    }
}

fn read(case: &Case) -> Register {
    Register::read(case.call.size, &case.call.lists)
}

// On a sheet an order's number of the size or more is reply 11.
fn in_range(register: &Register) -> bool {
    let mut order = register.rows.iter().chain(&register.cols);
    order.all(|&number| number < register.size)
}
