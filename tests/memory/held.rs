// One call made in every way: it has to come out alike, write nothing that was not lent for
// writing, and change nothing where it refuses. What it replies is counted.

use crate::call::{Call, Lists, ELIMINATION, SINGULAR};
use crate::desk;
use crate::group::Group;
use crate::lent::in_every_way;
use crate::sheet::call::{ReadCall, WriteCall};
use crate::told::told;

fn alike<T: PartialEq>(group: &mut Group, told: &dyn Fn() -> String, work: impl Fn() -> T) -> T {
    let mut outcomes = in_every_way(|| {
        group.called();
        work()
    });
    let last = outcomes.pop().expect("there is a way");
    if outcomes.iter().any(|other| *other != last) {
        group.fail(&format!(
            "the outcome depends on where the lists stand\n{}",
            told()
        ));
    }
    last
}

fn hold(group: &mut Group, holds: bool, what: &str, told: &dyn Fn() -> String) {
    if !holds {
        group.fail(&format!("{what}\n{}", told()));
    }
}

pub fn replace(group: &mut Group, call: &Call) -> usize {
    let told = || format!("the replacement\n{}", call.told());
    let got = alike(group, &told, || desk::replace(call));
    group.count(&format!("replace {}", got.reply));
    hold(group, !got.spilled, "it wrote to the new rows", &told);
    let kept = got.reply > SINGULAR || got.lists == call.lists;
    hold(group, kept, "it changed a list", &told);
    let counts = (got.bump > 0 || got.eta_count > 0) == (got.reply == ELIMINATION);
    hold(group, counts, "its counts are wrong", &told);
    got.reply
}

pub fn check(group: &mut Group, size: usize, lists: &Lists) -> usize {
    let told = || format!("the check of size {size}\n{}", told(&lists.six()));
    let (reply, kept) = alike(group, &told, || desk::check(size, lists));
    group.count(&format!("check {reply}"));
    hold(group, kept, "it changed a list", &told);
    reply
}

// How many rows there are.
pub fn look(group: &mut Group, size: usize, lists: &Lists, column: usize) -> usize {
    let (starts, rows) = (&lists.col_starts, &lists.col_rows);
    let told = || format!("the look, size {size}, column {column}\n  {starts:?}\n  {rows:?}");
    let (begin, length) = alike(group, &told, || desk::look(size, starts, rows, column));
    group.count(if length > 0 { "look rows" } else { "look none" });
    let inside = begin <= rows.len() && length <= rows.len() - begin;
    hold(group, inside, "the part is outside the list", &told);
    length
}

pub fn write(group: &mut Group, call: &WriteCall) -> usize {
    let told = || format!("the write\n{}", call.told());
    let got = alike(group, &told, || crate::sheet::desk::write(call));
    group.count(&format!("write {}", got.reply));
    hold(group, !got.spilled, "it wrote to the register", &told);
    let kept = got.reply == 0 || got.count == 0 && got.bytes == call.bytes;
    hold(group, kept, "it changed a byte", &told);
    got.reply
}

pub fn read(group: &mut Group, call: &ReadCall) -> usize {
    let told = || format!("the read\n{}", call.told());
    let got = alike(group, &told, || crate::sheet::desk::read(call));
    group.count(&format!("read {}", got.reply));
    hold(group, !got.spilled, "it wrote to the bytes", &told);
    let kept = got.reply == 0 || got.size == 0 && got.lists == call.lists;
    hold(group, kept, "it changed a list", &told);
    got.reply
}
