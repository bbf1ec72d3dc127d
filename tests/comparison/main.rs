// The tests of the replacement, the check, the look and the sheet. Each group compares the library
// with the second program, which shares no method with it, and counts as one test.

mod call;
mod calls;
mod columns;
mod damage;
mod desk;
mod diagonal;
mod dice;
mod every;
mod group;
mod large;
mod lent;
mod limits;
mod looks;
mod random;
mod register;
mod registers;
mod runs;
mod second;
mod sheet;
mod specimens;
mod told;

use group::Group;

const SEED: u64 = 20170417;

const GROUPS: [(&str, fn(&mut Group)); 28] = [
    ("specimens s1 to s12", specimens::table),
    ("running example", specimens::example),
    ("all permutation pairs to size 4", every::group),
    ("random calls", random::calls),
    ("one damage", random::one_damage),
    ("two damages", random::two_damages),
    ("paired row absent or present", diagonal::group),
    ("limits", limits::group),
    ("large patterns", large::patterns),
    ("long chains", large::chains),
    ("runs on small sizes", runs::small),
    ("run of 2,000 on size 40", runs::middle),
    ("runs of 200 on size 1,000", runs::large),
    ("check", looks::check),
    ("look on registers", looks::registers),
    ("look on rubbish", looks::rubbish),
    ("sheets by hand", sheet::by_hand::group),
    ("sheets there and back", sheet::trips::group),
    ("sheets with every byte changed", sheet::bytes::every),
    ("sheets with several bytes changed", sheet::bytes::several),
    ("sheets with one number wrong", sheet::misfits::group),
    ("random numbers as sheets", sheet::shapes::group),
    ("sheets of some 12,000 entries", sheet::totals::group),
    ("sheets into short lists", sheet::short::group),
    ("one damage before a write", sheet::damaged::one),
    ("several damages before a write", sheet::damaged::several),
    ("sheets of full size", sheet::full::group),
    ("sheets and lists past 65,535", sheet::long::group),
];

fn main() {
    let seed = match std::env::args().nth(1).map(|word| word.parse()) {
        None => SEED,
        Some(Ok(seed)) => seed,
        Some(Err(_)) => {
            println!("the seed is a whole number below 2 to the 64th");
            println!("0 passed, 1 failed");
            std::process::exit(1);
        }
    };
    println!("seed {seed}");
    let mut passed = 0;
    let mut calls = 0;
    for (name, work) in GROUPS {
        let mut group = Group::new(name, seed);
        work(&mut group);
        passed += usize::from(group.end());
        calls += group.calls();
    }
    println!("{calls} calls");
    println!("{passed} passed, {} failed", GROUPS.len() - passed);
    std::process::exit(i32::from(passed < GROUPS.len()));
}
