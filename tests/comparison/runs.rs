// Many replacements on one register: each call gets the lists as the call before left them. Refused
// calls stand between, and must leave everything ready for the next.

use crate::call::Call;
use crate::calls;
use crate::columns;
use crate::dice::Dice;
use crate::group::Group;
use crate::register::Register;
use crate::registers;

pub fn small(group: &mut Group) {
    for _ in 0..400 {
        let mut dice = group.dice();
        let size = 2 + dice.below(8);
        let register = registers::any(&mut dice, size);
        run(group, &register, 40, size / 2);
    }
    need_verdicts(group, 1_000);
    group.need("8", 100);
}

pub fn middle(group: &mut Group) {
    let mut dice = group.dice();
    let register = registers::of_total(&mut dice, 40, 120);
    run(group, &register, 2_000, 600);
    need_verdicts(group, 100);
}

pub fn large(group: &mut Group) {
    for total in [3_000, 11_900] {
        let mut dice = group.dice();
        let register = registers::of_total(&mut dice, 1_000, total);
        run(group, &register, 200, 13_000 - total);
    }
    need_verdicts(group, 20);
}

fn need_verdicts(group: &mut Group, least: usize) {
    for reply in ["SINGULAR", "PERMUTED", "ELIMINATION", "6", "7"] {
        group.need(reply, if reply.len() == 1 { 5 } else { least });
    }
}

fn run(group: &mut Group, register: &Register, length: usize, room: usize) {
    let mut dice = group.dice();
    let mut call = calls::lend(&mut dice, register, 0, vec![]);
    call.lists.col_rows.extend(dice.rubbish(room));
    call.lists.row_cols.extend(dice.rubbish(room + 1));
    for _ in 0..length {
        if group.failed() {
            return;
        }
        let mut dice = group.dice();
        next_call(&mut dice, &mut call);
        call.lists = group.same(&call).lists;
    }
}

fn next_call(dice: &mut Dice, call: &mut Call) {
    let register = Register::read(call.size, &call.lists);
    call.column = calls::some_column(dice, &register);
    call.new_rows = columns::any(dice, &register, call.column);
    // Full columns would soon fill a large register, and thin ones leave room for every verdict.
    if call.size > 20 && dice.in_hundred(80) {
        thin(dice, call, &register);
    }
    match dice.below(16) {
        0 => call.column = call.size + dice.below(3),
        1 => call.new_rows.insert(0, call.size as u16),
        _ => {}
    }
}

fn thin(dice: &mut Dice, call: &mut Call, register: &Register) {
    let paired = register.paired_row(call.column) as u16;
    let keep = 1 + dice.below(6);
    while call.new_rows.len() > keep {
        let place = dice.below(call.new_rows.len());
        if call.new_rows[place] != paired || dice.in_hundred(20) {
            call.new_rows.remove(place);
        }
    }
}
