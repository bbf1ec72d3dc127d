// The bench: how long the library takes beside a plain Rust program for the same contract, on the
// same inputs in one run.

mod dice;
mod draws;
mod groups;
mod library;
mod lists;
mod plain;
mod registers;
mod replies;
mod tables;
mod timing;

use dice::Dice;
use plain::Plain;
use timing::Desk;

const SEED: u64 = 2017;
const ROUNDS: usize = 300;

fn main() {
    if let Err(fault) = bench() {
        eprintln!("bench: {fault}");
        std::process::exit(1);
    }
}

fn bench() -> Result<(), String> {
    let seed = match std::env::args().nth(1).map(|word| word.parse()) {
        None => SEED,
        Some(Ok(seed)) => seed,
        Some(Err(_)) => return Err("the seed is a whole number below 2 to the 64th".to_string()),
    };
    let mut dice = Dice::new(seed);
    let registers = registers::all(&mut dice);
    let mut plain = Plain::new();
    let mut groups = groups::draw(&mut dice, &mut plain, &registers)?;
    let mut sheets = groups::sheets(&registers);
    let mut desk = Desk::new(plain, &registers[0].lists);
    for _ in 0..ROUNDS {
        groups::round(&mut desk, &mut groups, &mut sheets)?;
    }
    let (machine, compiler) = (processor(), env!("COMPILER"));
    println!(
        "{machine}; {compiler}; seed {seed}; for each input the least time of {ROUNDS} rounds."
    );
    println!("A number over several inputs is their median, with the 10th and 90th of a hundred.");
    tables::inputs(&groups);
    tables::replacements(&groups);
    tables::checks(&registers, &groups);
    tables::sheets(&sheets);
    Ok(())
}

fn processor() -> String {
    let told = std::fs::read_to_string("/proc/cpuinfo").unwrap_or_default();
    let mut lines = told.lines().filter_map(|line| line.split_once(": "));
    let name = lines.find(|(key, _)| key.starts_with("model name"));
    name.map_or("processor unknown", |(_, name)| name)
        .to_string()
}
