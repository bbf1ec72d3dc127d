// One group of tests: it counts calls and what came of them, keeps the first difference with all
// that is needed to make it again, and says at its end whether it passed.

use crate::call::{reply_name, Call, Outcome};
use crate::desk;
use crate::dice::Dice;
use crate::second;
use std::collections::BTreeMap;

pub struct Group {
    name: &'static str,
    seed: u64,
    draws: u64,
    calls: usize,
    counts: BTreeMap<String, usize>,
    fault: Option<String>,
}

impl Group {
    pub fn new(name: &'static str, seed: u64) -> Group {
        Group {
            name,
            seed,
            draws: 0,
            calls: 0,
            counts: BTreeMap::new(),
            fault: None,
        }
    }

    // New dice for each draw, so that one draw's numbers do not hang on how many another took.
    pub fn dice(&mut self) -> Dice {
        self.draws += 1;
        let mut mixed = self.seed;
        for number in self.name.bytes().map(u64::from).chain([self.draws]) {
            mixed = Dice::new(mixed ^ number).next();
        }
        Dice::new(mixed)
    }

    pub fn calls(&self) -> usize {
        self.calls
    }

    pub fn failed(&self) -> bool {
        self.fault.is_some()
    }

    // Only the first fault is kept: later ones often follow from it.
    pub fn fail(&mut self, what: &str) {
        let head = format!(
            "seed {}, draw {}, call {}",
            self.seed, self.draws, self.calls
        );
        self.fault.get_or_insert(format!("{head}: {what}"));
    }

    pub fn called(&mut self) {
        self.calls += 1;
    }

    pub fn count(&mut self, what: &str) -> usize {
        let count = self.counts.entry(what.to_string()).or_insert(0);
        *count += 1;
        *count
    }

    // A group whose draws hardly ever meet a case has not tested it.
    pub fn need(&mut self, what: &str, least: usize) {
        let seen = self.counts.get(what).copied().unwrap_or(0);
        if seen < least {
            self.fail(&format!("'{what}' was met {seen} times and not {least}"));
        }
    }

    // The call must come out as the second program says.
    pub fn same(&mut self, call: &Call) -> Outcome {
        let wanted = second::replace(call);
        self.hold(call, &wanted);
        wanted
    }

    // The call must come out as given.
    pub fn hold(&mut self, call: &Call, wanted: &Outcome) {
        self.called();
        self.count(&reply_name(wanted.reply));
        let got = desk::replace(call);
        if got != *wanted {
            let text = format!(
                "{}\nthe call\n{}the library gave\n{}wanted was\n{}",
                got.difference(wanted),
                call.told(),
                got.told(&call.lists),
                wanted.told(&call.lists)
            );
            self.fail(&text);
        }
    }

    pub fn end(&mut self) -> bool {
        if self.calls == 0 {
            self.fail("nothing was called");
        }
        let counts = self
            .counts
            .iter()
            .map(|(what, count)| format!("{what} {count}"));
        let counts = counts.collect::<Vec<_>>().join(", ");
        match &self.fault {
            None => println!("{}: ok ({} calls)", self.name, self.calls),
            Some(fault) => println!("{}: FAILED\n{fault}", self.name),
        }
        if !counts.is_empty() {
            println!("    {counts}");
        }
        self.fault.is_none()
    }
}
