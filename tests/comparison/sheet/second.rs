// What the writer and the reader must give, from the build paper's sentences: a sheet is taken
// apart into all its numbers and all their faults, and every list is built afresh.

use super::call::{ReadCall, ReadOutcome, WriteCall, WriteOutcome};
use super::layout::Layout;
use super::numbers::{decode, groups};
use crate::call::Lists;
use crate::register::{by_column, Register};
use crate::second::{lists_after, over, register_fault};

pub fn write(call: &WriteCall) -> WriteOutcome {
    let refused = |reply| WriteOutcome {
        reply,
        count: 0,
        bytes: call.bytes.clone(),
        spilled: false,
    };
    if let Some(reply) = register_fault(call.size, &call.lists) {
        return refused(reply);
    }
    let sheet = sheet(&Register::read(call.size, &call.lists));
    if sheet.len() > call.bytes.len() {
        return refused(8);
    }
    WriteOutcome {
        reply: 0,
        count: sheet.len(),
        bytes: over(sheet, &call.bytes),
        spilled: false,
    }
}

pub fn read(call: &ReadCall) -> ReadOutcome {
    let (reply, size, lists) = match accepted(call) {
        Ok(register) => (0, register.size, lists_after(&register, &[], &call.lists)),
        Err(reply) => (reply, 0, call.lists.clone()),
    };
    ReadOutcome {
        reply,
        size,
        lists,
        spilled: false,
    }
}

// The register on the sheet, or the reply to it.
fn accepted(call: &ReadCall) -> Result<Register, usize> {
    let decoded = decode(&call.bytes);
    let layout = Layout::of(&decoded.numbers);
    let mut faults = layout.faults();
    let (there, needed) = (decoded.numbers.len(), layout.needed());
    if there < needed {
        faults.push((there, decoded.one_more));
    }
    if let Some(&(_, reply)) = faults.iter().min() {
        return Err(reply);
    }
    if decoded.ends[needed - 1] < call.bytes.len() {
        return Err(12);
    }
    let register = layout.register();
    let lists = register.lists();
    if short(&call.lists, &lists) {
        return Err(2);
    }
    register_fault(register.size, &lists).map_or(Ok(register), Err)
}

// Each list has to be as long as the one that holds the register without a spare place.
fn short(lent: &Lists, needed: &Lists) -> bool {
    let mut both = lent.six().into_iter().zip(needed.six());
    both.any(|((_, lent), (_, needed))| lent.len() < needed.len())
}

// The numbers of a register's sheet; the order may be unsound.
pub fn numbers(register: &Register) -> Vec<usize> {
    let mut numbers = vec![register.size];
    for rows in by_column(register.size, &register.entries) {
        numbers.push(rows.len());
        numbers.extend(rows.first());
        numbers.extend(rows.windows(2).map(|two| two[1] - two[0] - 1));
    }
    for (&row, &column) in register.rows.iter().zip(&register.cols) {
        numbers.extend([row, column]);
    }
    numbers
}

pub fn sheet(register: &Register) -> Vec<u8> {
    encode(&numbers(register))
}

pub fn encode(numbers: &[usize]) -> Vec<u8> {
    numbers.iter().flat_map(|&number| groups(number)).collect()
}
