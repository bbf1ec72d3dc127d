// One call of the writer or of the reader is counted by its reply and must come out as the second
// program says.

use super::call::{ReadCall, ReadOutcome, WriteCall, WriteOutcome};
use super::{desk, second};
use crate::group::Group;

pub fn same_write(group: &mut Group, call: &WriteCall) -> WriteOutcome {
    let wanted = second::write(call);
    hold_write(group, call, &wanted);
    wanted
}

pub fn hold_write(group: &mut Group, call: &WriteCall, wanted: &WriteOutcome) {
    group.called();
    group.count(&format!("write {}", wanted.reply));
    let got = desk::write(call);
    if got != *wanted {
        let text = format!(
            "{}\nthe write\n{}the library gave\n{}wanted was\n{}",
            got.difference(wanted),
            call.told(),
            got.told(&call.bytes),
            wanted.told(&call.bytes)
        );
        group.fail(&text);
    }
}

pub fn same_read(group: &mut Group, call: &ReadCall) -> ReadOutcome {
    let wanted = second::read(call);
    hold_read(group, call, &wanted);
    wanted
}

pub fn hold_read(group: &mut Group, call: &ReadCall, wanted: &ReadOutcome) {
    group.called();
    group.count(&format!("read {}", wanted.reply));
    let got = desk::read(call);
    if got != *wanted {
        let text = format!(
            "{}\nthe read\n{}the library gave\n{}wanted was\n{}",
            got.difference(wanted),
            call.told(),
            got.told(&call.lists),
            wanted.told(&call.lists)
        );
        group.fail(&text);
    }
}

// The reply is known beforehand, so the second program is held to it as well.
pub fn wants_write(group: &mut Group, call: &WriteCall, reply: usize, why: &str) -> WriteOutcome {
    let wanted = same_write(group, call);
    if wanted.reply != reply {
        let (got, told) = (wanted.reply, call.told());
        group.fail(&format!(
            "{why}: the second program says {got} and not {reply}\n{told}"
        ));
    }
    wanted
}

pub fn wants_read(group: &mut Group, call: &ReadCall, reply: usize, why: &str) -> ReadOutcome {
    let wanted = same_read(group, call);
    if wanted.reply != reply {
        let (got, told) = (wanted.reply, call.told());
        group.fail(&format!(
            "{why}: the second program says {got} and not {reply}\n{told}"
        ));
    }
    wanted
}
