// Random texts of three ranges of size: a sound start and a run of puts, mostly accepted, handed
// over in every way.

use crate::dice::Dice;
use crate::group::Group;
use crate::puts;
use crate::starts;
use crate::texts;
use crate::trial::Trial;
use crate::wanted::Desk;

pub fn small(group: &mut Group) {
    group.many(5_000, |dice| {
        let text = small_text(dice);
        Trial::any_way(text, dice)
    });
    need_replies(group, 500);
}

pub fn middle(group: &mut Group) {
    group.many(250, |dice| {
        let size = 20 + dice.below(41);
        let columns = starts::any(dice, size);
        let puts = 5 + dice.below(25);
        let text = run(dice, columns, puts);
        Trial::any_way(text, dice)
    });
    need_replies(group, 100);
}

pub fn large(group: &mut Group) {
    group.many(40, |dice| {
        let size = 300 + dice.below(701);
        let total = size + dice.below(12_001 - size);
        let total = if dice.in_hundred(40) { 12_000 } else { total };
        let columns = starts::of_total(dice, size, total);
        let text = run(dice, columns, 12);
        Trial::any_way(text, dice)
    });
    need_replies(group, 10);
    group.need("put REFUSED 8", 10);
}

fn need_replies(group: &mut Group, least: usize) {
    for verdict in ["SINGULAR", "PERMUTED", "ELIMINATION"] {
        group.need(verdict, least);
    }
    group.need("put REFUSED 6", least);
    group.need("put REFUSED 7", least);
}

// Also what is damaged elsewhere.
pub fn small_text(dice: &mut Dice) -> String {
    let size = 1 + dice.below(8);
    let columns = starts::any(dice, size);
    let puts = dice.below(14);
    run(dice, columns, puts)
}

// The second program's desk goes along, so that each put is drawn for the register it meets.
fn run(dice: &mut Dice, columns: Vec<Vec<usize>>, puts: usize) -> String {
    let mut text = texts::start(&columns);
    let mut desk = Desk::new(columns);
    for _ in 0..puts {
        let put = puts::any(dice, &desk.register());
        desk.put(put.column, &put.rows);
        text += &texts::line("put", put.column, &put.rows);
    }
    text
}
