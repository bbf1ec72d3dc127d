// Random calls: good ones, damaged ones and scratched ones mixed; each damage by itself; and every
// pair of damages, so that the earlier check has to answer.

use crate::call::{Call, Lists, Outcome, ELIMINATION, PERMUTED};
use crate::calls::{self, Case};
use crate::damage::{self, Damage};
use crate::dice::Dice;
use crate::group::Group;
use crate::second;
use std::collections::BTreeSet;

const REPLIES: [&str; 11] = [
    "1",
    "2",
    "3",
    "4",
    "5",
    "6",
    "7",
    "8",
    "SINGULAR",
    "PERMUTED",
    "ELIMINATION",
];

pub fn calls(group: &mut Group) {
    for _ in 0..200_000 {
        let mut dice = group.dice();
        let mut case = calls::any(&mut dice);
        match dice.below(100) {
            0..=59 => {}
            60..=74 => damage_it(&mut case, &mut dice, 1),
            75..=82 => damage_it(&mut case, &mut dice, 2),
            83..=84 => damage_it(&mut case, &mut dice, 3),
            _ => damage::scratch(&mut case, &mut dice),
        }
        let wanted = group.same(&case.call);
        count_changes(group, &case.call, &wanted);
        if group.failed() {
            return;
        }
    }
    for reply in REPLIES {
        group.need(reply, 2_000);
    }
    for change in ["another order", "other pairs", "a lower total"] {
        group.need(change, 2_000);
    }
}

// A verdict that leaves nearly everything as it was tries little.
fn count_changes(group: &mut Group, call: &Call, wanted: &Outcome) {
    let (before, after) = (&call.lists, &wanted.lists);
    if wanted.reply == ELIMINATION && after.col_starts[call.size] < before.col_starts[call.size] {
        group.count("a lower total");
    }
    if wanted.reply != PERMUTED {
        return;
    }
    let pairs = |lists: &Lists| {
        let rows = lists.order_rows[..call.size].iter();
        rows.zip(&lists.order_cols)
            .map(|(&r, &c)| (r, c))
            .collect::<BTreeSet<(u16, u16)>>()
    };
    if pairs(before) != pairs(after) {
        group.count("other pairs");
    } else if before.order_cols != after.order_cols {
        group.count("another order");
    }
}

pub fn damage_it(case: &mut Case, dice: &mut Dice, times: usize) {
    for _ in 0..times {
        let all = damage::of_reply(1 + dice.below(8));
        (dice.pick(all).work)(case, dice);
    }
}

pub fn one_damage(group: &mut Group) {
    for reply in 1..=8 {
        for damage in damage::of_reply(reply) {
            for _ in 0..400 {
                one_damaged(group, reply, damage);
                if group.failed() {
                    return;
                }
            }
        }
    }
}

// The damage says which reply it makes: that holds the second program to the paper's table too.
fn one_damaged(group: &mut Group, reply: usize, damage: &Damage) {
    let case = loop {
        let mut dice = group.dice();
        let mut case = calls::any(&mut dice);
        if (damage.work)(&mut case, &mut dice) {
            break case;
        }
    };
    let wanted = second::replace(&case.call);
    if wanted.reply != reply {
        let (name, got) = (damage.name, wanted.reply);
        let told = case.call.told();
        group.fail(&format!(
            "the second program says {got} to '{name}' and not {reply}\n{told}"
        ));
    }
    group.hold(&case.call, &wanted);
}

pub fn two_damages(group: &mut Group) {
    for early in 1..=8 {
        for late in early..=8 {
            for _ in 0..600 {
                two_damaged(group, early, late);
                if group.failed() {
                    return;
                }
            }
            group.need(&format!("{early} before {late}"), 300);
        }
    }
}

// The later check's damage is done first: an earlier check's damage seldom heals it.
fn two_damaged(group: &mut Group, early: usize, late: usize) {
    let mut dice = group.dice();
    let mut case = calls::any(&mut dice);
    let (first, second) = (damage::of_reply(late), damage::of_reply(early));
    let both = (dice.pick(first).work)(&mut case, &mut dice)
        && (dice.pick(second).work)(&mut case, &mut dice);
    let wanted = group.same(&case.call);
    if both && wanted.reply == early {
        group.count(&format!("{early} before {late}"));
    }
}
