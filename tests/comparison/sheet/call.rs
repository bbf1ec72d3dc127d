// One call of the writer or of the reader and one outcome, as plain data, and how they are told in
// full. The eta list stands in `Lists` and has no part in them.

use crate::call::Lists;
use crate::told::{first_number, first_place, told, told_after, told_spilled, SPILLED};

#[derive(Clone)]
pub struct WriteCall {
    pub size: usize,
    pub lists: Lists,
    pub bytes: Vec<u8>,
}

// `spilled`: something was written that was not lent for writing, the six lists included.
#[derive(Clone, PartialEq)]
pub struct WriteOutcome {
    pub reply: usize,
    pub count: usize,
    pub bytes: Vec<u8>,
    pub spilled: bool,
}

#[derive(Clone)]
pub struct ReadCall {
    pub bytes: Vec<u8>,
    pub lists: Lists,
}

// `spilled`: something was written that was not lent for writing, the bytes included.
#[derive(Clone, PartialEq)]
pub struct ReadOutcome {
    pub reply: usize,
    pub size: usize,
    pub lists: Lists,
    pub spilled: bool,
}

impl WriteCall {
    pub fn told(&self) -> String {
        let head = format!("  size {}\n", self.size);
        head + &told(&self.lists.six()) + &told_bytes(&self.bytes)
    }
}

impl WriteOutcome {
    pub fn told(&self, before: &[u8]) -> String {
        let head = format!("  reply {}, count {}", self.reply, self.count);
        let bytes = match self.bytes == before {
            true => "  bytes unchanged\n".to_string(),
            false => told_bytes(&self.bytes),
        };
        head + told_spilled(self.spilled) + &bytes
    }

    // The first thing in which this outcome is not the wanted one.
    pub fn difference(&self, wanted: &WriteOutcome) -> String {
        let numbers = [
            ("reply", self.reply, wanted.reply),
            ("count", self.count, wanted.count),
        ];
        first_number(&numbers)
            .or_else(|| first_place(&[("bytes", &self.bytes)], &[("bytes", &wanted.bytes)]))
            .unwrap_or(SPILLED.to_string())
    }
}

impl ReadCall {
    pub fn told(&self) -> String {
        told_bytes(&self.bytes) + &told(&self.lists.six())
    }
}

impl ReadOutcome {
    pub fn told(&self, before: &Lists) -> String {
        let head = format!("  reply {}, size {}", self.reply, self.size);
        head + told_spilled(self.spilled) + &told_after(&self.lists.six(), &before.six())
    }

    // The first thing in which this outcome is not the wanted one.
    pub fn difference(&self, wanted: &ReadOutcome) -> String {
        let numbers = [
            ("reply", self.reply, wanted.reply),
            ("size", self.size, wanted.size),
        ];
        first_number(&numbers)
            .or_else(|| first_place(&self.lists.six(), &wanted.lists.six()))
            .unwrap_or(SPILLED.to_string())
    }
}

fn told_bytes(bytes: &[u8]) -> String {
    let text: Vec<String> = bytes.iter().map(|byte| format!("{byte:02x}")).collect();
    format!("  bytes ({}) {}\n", bytes.len(), text.join(" "))
}
