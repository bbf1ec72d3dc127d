// Damaged registers for the writer: each damage by itself, every pair of them, and scratches; with
// room for the sheet and without, so that the earlier check has to answer.

use super::call::WriteCall;
use super::held::{same_write, wants_write};
use super::second;
use crate::calls::{self, spare, Case};
use crate::damage::{self, Damage};
use crate::dice::Dice;
use crate::group::Group;

pub fn one(group: &mut Group) {
    for reply in 1..=5 {
        // The writer has no eta list.
        let all = damage::of_reply(reply).iter();
        for damage in all.filter(|damage| damage.name != "eta list short") {
            for _ in 0..200 {
                one_damaged(group, reply, damage);
                if group.failed() {
                    return;
                }
            }
        }
        group.need(&format!("write {reply}"), 1_000);
    }
}

fn one_damaged(group: &mut Group, reply: usize, damage: &Damage) {
    let mut dice = group.dice();
    let case = loop {
        let mut case = calls::any(&mut dice);
        if (damage.work)(&mut case, &mut dice) {
            break case;
        }
    };
    for room in [true, false] {
        let call = write_of(&mut dice, &case, room);
        wants_write(group, &call, reply, damage.name);
    }
}

// The undamaged register decides about the room.
fn write_of(dice: &mut Dice, case: &Case, room: bool) -> WriteCall {
    let sheet = second::sheet(&case.register).len();
    let length = match room {
        true => sheet + spare(dice),
        false => dice.below(sheet),
    };
    let mut lists = case.call.lists.clone();
    lists.eta.clear();
    WriteCall {
        size: case.call.size,
        lists,
        bytes: dice.bytes(length),
    }
}

pub fn several(group: &mut Group) {
    for early in 1..=5 {
        for late in early..=5 {
            for _ in 0..500 {
                two_damaged(group, early, late);
                if group.failed() {
                    return;
                }
            }
            group.need(&format!("{early} before {late}"), 250);
        }
    }
    for _ in 0..10_000 {
        scratched(group);
        if group.failed() {
            return;
        }
    }
    for reply in [0, 1, 2, 3, 4, 5, 8] {
        group.need(&format!("write {reply}"), 500);
    }
}

// The later check's damage is done first: an earlier check's damage seldom heals it.
fn two_damaged(group: &mut Group, early: usize, late: usize) {
    let mut dice = group.dice();
    let mut case = calls::any(&mut dice);
    let (first, second) = (damage::of_reply(late), damage::of_reply(early));
    let both = (dice.pick(first).work)(&mut case, &mut dice)
        && (dice.pick(second).work)(&mut case, &mut dice);
    let room = dice.coin();
    let wanted = same_write(group, &write_of(&mut dice, &case, room));
    if both && wanted.reply == early {
        group.count(&format!("{early} before {late}"));
    }
}

fn scratched(group: &mut Group) {
    let mut dice = group.dice();
    let mut case = calls::any(&mut dice);
    damage::scratch(&mut case, &mut dice);
    let room = dice.in_hundred(70);
    same_write(group, &write_of(&mut dice, &case, room));
}
