// The library on lists that are allocated to the exact byte, so that a read or write beside one is
// seen: the program breaks off, or valgrind tells it. Each group makes many calls, holds that a
// refused one changes no list, and counts as one test.

mod beside;
mod cases;
mod damaged;
mod heap;
mod held;
mod lengths;
mod lent;
mod numbers;
mod pages;
mod sheets;
mod sizes;
mod sound;

// Registers, new columns, damage and the calls themselves are those of the comparison; the lists
// that it lends are ours.
#[allow(dead_code, unused_imports)]
#[path = "../comparison"]
mod comparison {
    pub mod call;
    pub mod calls;
    pub mod columns;
    pub mod damage;
    pub mod desk;
    pub mod dice;
    pub mod group;
    pub mod register;
    pub mod registers;
    pub mod second;
    pub mod told;
    pub mod sheet {
        pub mod call;
        pub mod desk;
        pub mod layout;
        pub mod lend;
        pub mod numbers;
        pub mod second;
    }
}
use comparison::{
    call, calls, columns, damage, desk, dice, group, register, registers, second, sheet, told,
};

use group::Group;

const SEED: u64 = 20170417;

const GROUPS: [(&str, fn(&mut Group)); 10] = [
    ("sound registers", sound::group),
    ("one damage", damaged::one),
    ("scratches", damaged::scratched),
    ("every number of small registers", numbers::every),
    ("numbers of large registers", numbers::some),
    ("short and empty lists", lengths::group),
    ("sizes", sizes::group),
    ("sheets cut and with surplus", sheets::lengths),
    ("sheets with bytes changed", sheets::changed),
    ("random bytes as sheets", sheets::random),
];

fn main() {
    let words: Vec<String> = std::env::args().skip(1).collect();
    let known = words.first().is_some_and(|way| lent::choose(way));
    match words.get(1) {
        None if known => run(),
        Some(side) if known && beside::read(side) => {}
        _ => {
            println!("usage: memory pages|heap [before|past]");
            std::process::exit(2);
        }
    }
}

fn run() {
    let mut passed = 0;
    let mut calls = 0;
    for (name, work) in GROUPS {
        // A group that breaks off cannot tell its name any more.
        println!("{name} ..");
        let mut group = Group::new(name, SEED);
        work(&mut group);
        passed += usize::from(group.end());
        calls += group.calls();
    }
    println!("{calls} calls");
    println!("{passed} passed, {} failed", GROUPS.len() - passed);
    std::process::exit(i32::from(passed < GROUPS.len()));
}
