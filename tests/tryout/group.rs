// One group of trials: it runs them two at a time, counts what was wanted, keeps the first
// difference with all that is needed to make it again, and says at its end whether it passed.

use crate::dice::Dice;
use crate::trial::Trial;
use std::collections::BTreeMap;
use std::sync::atomic::{AtomicBool, AtomicU64, Ordering};
use std::thread;

pub struct Group {
    name: &'static str,
    seed: u64,
    draws: u64,
    tally: Tally,
}

#[derive(Default)]
struct Tally {
    trials: usize,
    counts: BTreeMap<String, usize>,
    differing: usize,
    // With the number of its draw, or of its trial in a given list.
    first: Option<(u64, String)>,
}

impl Group {
    pub fn new(name: &'static str, seed: u64) -> Group {
        Group {
            name,
            seed,
            draws: 0,
            tally: Tally::default(),
        }
    }

    pub fn dice(&mut self) -> Dice {
        self.draws += 1;
        self.dice_of(self.draws)
    }

    // New dice for each draw, so that one draw's numbers do not hang on how many another took.
    fn dice_of(&self, draw: u64) -> Dice {
        let mut mixed = self.seed;
        for number in self.name.bytes().map(u64::from).chain([draw]) {
            mixed = Dice::new(mixed ^ number).next();
        }
        Dice::new(mixed)
    }

    pub fn trials(&self) -> usize {
        self.tally.trials
    }

    pub fn many(&mut self, count: u64, make: impl Fn(&mut Dice) -> Trial + Sync) {
        let first = self.draws + 1;
        let tally = work(first, count, &|draw| make(&mut self.dice_of(draw)));
        self.draws += count;
        self.tally.add(tally);
    }

    pub fn all(&mut self, trials: Vec<Trial>) {
        let count = trials.len() as u64;
        let tally = work(0, count, &|number| trials[number as usize].clone());
        self.tally.add(tally);
    }

    // A group whose texts hardly ever meet a case has not tested it.
    pub fn need(&mut self, what: &str, least: usize) {
        let seen = self.tally.counts.get(what).copied().unwrap_or(0);
        if seen < least {
            self.fail(format!("'{what}' was met {seen} times and not {least}"));
        }
    }

    pub fn fail(&mut self, what: String) {
        self.tally.fault(self.draws, what);
    }

    pub fn end(&mut self) -> bool {
        if self.tally.trials == 0 {
            self.fail("nothing was tried".to_string());
        }
        let (name, seed, tally) = (self.name, self.seed, &self.tally);
        match &tally.first {
            None => println!("{name}: ok ({} texts)", tally.trials),
            Some((draw, fault)) => {
                let (differing, trials) = (tally.differing, tally.trials);
                println!("{name}: FAILED ({differing} faults in {trials} texts)");
                println!("seed {seed}, number {draw}: {fault}");
            }
        }
        let counts = tally.counts.iter();
        let counts = counts.map(|(what, count)| format!("{what} {count}"));
        println!("    {}", counts.collect::<Vec<_>>().join(", "));
        tally.first.is_none()
    }
}

// A program that does not end takes its time to be found out, so its group stops there.
fn work(first: u64, count: u64, make: &(dyn Fn(u64) -> Trial + Sync)) -> Tally {
    let next = AtomicU64::new(first);
    let hung = AtomicBool::new(false);
    let one = || {
        let mut tally = Tally::default();
        loop {
            let draw = next.fetch_add(1, Ordering::Relaxed);
            if draw >= first + count || hung.load(Ordering::Relaxed) {
                return tally;
            }
            if tally.take(draw, &make(draw)) {
                hung.store(true, Ordering::Relaxed);
            }
        }
    };
    thread::scope(|scope| {
        let other = scope.spawn(one);
        let mut tally = one();
        tally.add(other.join().expect("a trial does not panic"));
        tally
    })
}

impl Tally {
    // Says whether the program hung.
    fn take(&mut self, draw: u64, trial: &Trial) -> bool {
        let held = trial.hold();
        self.trials += 1;
        for line in held.wanted.lines() {
            *self.counts.entry(kind(line)).or_insert(0) += 1;
        }
        if held.wanted.is_empty() {
            *self.counts.entry("no reply".to_string()).or_insert(0) += 1;
        }
        if let Some(fault) = held.fault {
            self.fault(draw, fault);
        }
        held.hung
    }

    fn fault(&mut self, draw: u64, what: String) {
        self.differing += 1;
        let first = self.first.take().into_iter().chain([(draw, what)]);
        self.first = first.min_by_key(|fault| fault.0);
    }

    fn add(&mut self, other: Tally) {
        self.trials += other.trials;
        self.differing += other.differing;
        for (what, count) in other.counts {
            *self.counts.entry(what).or_insert(0) += count;
        }
        let both = self.first.take().into_iter().chain(other.first);
        self.first = both.min_by_key(|fault| fault.0);
    }
}

// A reply line without its column, its line number and its order.
fn kind(line: &str) -> String {
    let words: Vec<&str> = line.split(' ').take(4).collect();
    match words[..] {
        ["put", _, "REFUSED", number] => format!("put REFUSED {number}"),
        ["put", _, verdict, _] => verdict.to_string(),
        ["bad", "line", ..] => "bad line".to_string(),
        _ => line.to_string(),
    }
}
