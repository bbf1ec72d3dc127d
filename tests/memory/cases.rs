// The calls that the groups begin with: random registers of the sizes that matter, and all
// functions that take a register on one call's lists.

use crate::calls::{self, Case};
use crate::columns;
use crate::dice::Dice;
use crate::group::Group;
use crate::held;
use crate::register::Register;
use crate::registers;
use crate::sheet::call::{ReadCall, WriteCall};
use crate::sheet::second::sheet;

pub const SMALL: [usize; 3] = [1, 2, 7];
pub const LARGE: [usize; 3] = [130, 300, 1_000];

// A call that passes every check, with any new rows.
pub fn of_size(dice: &mut Dice, size: usize) -> Case {
    let register = match size {
        0..100 => registers::any(dice, size),
        100..1_000 => registers::of_total(dice, size, 3 * size),
        _ => registers::of_total(dice, size, 11_000),
    };
    let kind = dice.pick(&columns::KINDS);
    of_kind(dice, register, kind)
}

// New rows of one kind for some column of the register.
pub fn of_kind(dice: &mut Dice, register: Register, kind: &str) -> Case {
    let column = calls::some_column(dice, &register);
    let new_rows = columns::of_kind(kind, dice, &register, column);
    let call = calls::lend(dice, &register, column, new_rows);
    Case { register, call }
}

// The replies of the check, of the writer and of the replacement. For the writer there are as many
// bytes as the undamaged register needs.
pub fn call_all(group: &mut Group, case: &Case) -> [usize; 3] {
    let (size, lists) = (case.call.size, &case.call.lists);
    held::look(group, size, lists, case.call.column);
    let length = sheet(&case.register).len();
    [
        held::check(group, size, lists),
        held::write(group, &to_write(case, length)),
        held::replace(group, &case.call),
    ]
}

// The replies have to be the wanted ones.
pub fn want_all(group: &mut Group, case: &Case, wanted: [usize; 3], why: &str) {
    let got = call_all(group, case);
    if got != wanted {
        let told = case.call.told();
        group.fail(&format!(
            "{why}: the replies are {got:?} and not {wanted:?}\n{told}"
        ));
    }
}

// The call's register to be written to so many bytes.
pub fn to_write(case: &Case, length: usize) -> WriteCall {
    WriteCall {
        size: case.call.size,
        lists: case.call.lists.clone(),
        bytes: vec![0x5A; length],
    }
}

// The reply has to be the wanted one.
pub fn want_read(group: &mut Group, call: &ReadCall, wanted: usize, why: &str) {
    let got = held::read(group, call);
    if got != wanted {
        let told = call.told();
        group.fail(&format!(
            "{why}: the reply is {got} and not {wanted}\n{told}"
        ));
    }
}

pub fn want_no_room(group: &mut Group, call: &WriteCall) {
    let got = held::write(group, call);
    if got != 8 {
        let told = call.told();
        group.fail(&format!("too few bytes: the reply is {got}\n{told}"));
    }
}
