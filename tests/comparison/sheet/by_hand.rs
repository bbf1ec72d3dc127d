// Sheets whose reply is known from the build paper by hand: the paper's example both ways, a table
// of small ones, and the limits. The second program is held to them too.

mod limits;
mod table;

use super::call::{ReadCall, ReadOutcome, WriteCall, WriteOutcome};
use super::held::{hold_read, hold_write, wants_read};
use super::{lend, second};
use crate::call::Lists;
use crate::dice::Dice;
use crate::group::Group;
use crate::second::over;
use table::{Pair, PAIRS, SHEETS, SHORT};

// Ten times each, with other spare places and other rubbish.
pub fn group(group: &mut Group) {
    for _ in 0..10 {
        for pair in PAIRS {
            written(group, pair);
            read(group, pair);
        }
        for &(text, reply, why) in SHEETS {
            let mut dice = group.dice();
            let call = lend::to_read(&mut dice, &bytes(text), 4, 6);
            wants_read(group, &call, reply, why);
        }
        for &(text, lengths, reply, why) in SHORT {
            let bytes = bytes(text);
            let lists = lend::rubbish(&mut group.dice(), lengths);
            wants_read(group, &ReadCall { bytes, lists }, reply, why);
        }
        limits::sizes(group);
        limits::totals(group);
    }
}

fn bytes(text: &str) -> Vec<u8> {
    let words = text.split_whitespace();
    words
        .map(|word| u8::from_str_radix(word, 16).expect("two hex digits"))
        .collect()
}

// The pair's register, then in each list what it held in the places beyond.
fn lists(pair: &Pair, old: &Lists) -> Lists {
    let on = |new: &[u16], old: &[u16]| over(new.to_vec(), old);
    Lists {
        col_starts: on(pair.col_starts, &old.col_starts),
        col_rows: on(pair.col_rows, &old.col_rows),
        row_starts: on(pair.row_starts, &old.row_starts),
        row_cols: on(pair.row_cols, &old.row_cols),
        order_rows: on(pair.order_rows, &old.order_rows),
        order_cols: on(pair.order_cols, &old.order_cols),
        eta: Vec::new(),
    }
}

fn rubbish(dice: &mut Dice, pair: &Pair) -> ReadCall {
    let (size, total) = (pair.order_rows.len(), pair.col_rows.len());
    lend::to_read(dice, &bytes(pair.sheet), size, total)
}

fn written(group: &mut Group, pair: &Pair) {
    let mut dice = group.dice();
    let sheet = bytes(pair.sheet);
    let lists = lists(pair, &rubbish(&mut dice, pair).lists);
    for length in [sheet.len(), sheet.len() + 1, sheet.len() + 30] {
        let call = WriteCall {
            size: pair.order_rows.len(),
            lists: lists.clone(),
            bytes: dice.bytes(length),
        };
        let wanted = WriteOutcome {
            reply: 0,
            count: sheet.len(),
            bytes: over(sheet.clone(), &call.bytes),
            spilled: false,
        };
        if second::write(&call) != wanted {
            let told = call.told();
            group.fail(&format!("the second program writes another sheet\n{told}"));
        }
        hold_write(group, &call, &wanted);
    }
}

fn read(group: &mut Group, pair: &Pair) {
    let call = rubbish(&mut group.dice(), pair);
    let wanted = ReadOutcome {
        reply: 0,
        size: pair.order_rows.len(),
        lists: lists(pair, &call.lists),
        spilled: false,
    };
    if second::read(&call) != wanted {
        let told = call.told();
        group.fail(&format!("the second program reads otherwise\n{told}"));
    }
    hold_read(group, &call, &wanted);
}
