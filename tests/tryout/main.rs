// The tests of the tryout program. Each group hands it texts, compares all it prints with the
// second program's own tryout, and counts as one test.

mod child;
mod damage;
mod damaged;
mod ends;
mod examples;
mod group;
mod limits;
mod lines;
mod longest;
mod paper;
mod puts;
mod random;
mod refused;
mod speed;
mod starts;
mod texts;
mod trial;
mod wanted;
mod way;

// The judge and the dice are those of the comparison with the library.
#[allow(dead_code, unused_imports)]
#[path = "../comparison"]
mod comparison {
    pub mod call;
    pub mod columns;
    pub mod dice;
    pub mod register;
    pub mod second;
    pub mod told;
}
use comparison::{call, columns, dice, register, second, told};

use group::Group;

const SEED: u64 = 20170417;

const GROUPS: [(&str, fn(&mut Group)); 21] = [
    ("the paper's example", paper::example),
    ("the examples of the README", examples::group),
    ("specimens s1 to s12", paper::specimens),
    ("random texts of small sizes", random::small),
    ("random texts of middle sizes", random::middle),
    ("random texts of large sizes", random::large),
    ("bytes changed", damaged::bytes),
    ("lines changed", damaged::whole_lines),
    ("one bad line", damaged::one_line),
    ("a text cut at every byte", damaged::cut_short),
    ("a text with every byte changed", damaged::every_byte),
    ("refused starts", refused::starts),
    ("bad lines in refused starts", refused::bad_lines),
    ("totals of starts", limits::starts::group),
    ("sizes", limits::sizes::group),
    ("lengths of lines", limits::lines::group),
    ("totals of puts", limits::totals::group),
    ("ends of the read buffer", limits::reading::group),
    ("longest replies", longest::replies),
    ("longest texts", longest::texts),
    ("ends by itself", ends::group),
];

fn main() {
    let word = std::env::args().nth(1);
    if word.as_deref() == Some("speed") {
        return speed::measure(SEED);
    }
    let seed = match word.map(|word| word.parse()) {
        None => SEED,
        Some(Ok(seed)) => seed,
        Some(Err(_)) => {
            println!("the seed is a whole number below 2 to the 64th, or 'speed'");
            println!("0 passed, 1 failed");
            std::process::exit(1);
        }
    };
    println!("seed {seed}");
    let mut passed = 0;
    let mut trials = 0;
    for (name, work) in GROUPS {
        let mut group = Group::new(name, seed);
        work(&mut group);
        passed += usize::from(group.end());
        trials += group.trials();
    }
    println!("{trials} texts");
    println!("{passed} passed, {} failed", GROUPS.len() - passed);
    std::process::exit(i32::from(passed < GROUPS.len()));
}
