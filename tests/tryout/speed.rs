// How long a put takes, in the program under test and in the second program: the whole program on
// the same text, best of three.

use crate::child;
use crate::dice::Dice;
use crate::starts;
use crate::texts::{self, line};
use crate::wanted;
use crate::way::Way;
use std::time::Instant;

const SIZE: usize = 1_000;
const PUTS: usize = 2_000;

pub fn measure(seed: u64) {
    for total in [3_000, 12_000] {
        let text = text(&mut Dice::new(seed), total);
        let (program, output) = best(|| child::run(text.as_bytes(), &Way::File).output);
        let (second, wanted) = best(|| wanted::output(text.as_bytes()).into_bytes());
        let same = if output == wanted {
            "the same output"
        } else {
            "OTHER OUTPUT"
        };
        println!("{total} entries: {program} us a put, second program {second} us a put, {same}");
    }
}

fn best(work: impl Fn() -> Vec<u8>) -> (u128, Vec<u8>) {
    let once = |_| {
        let begin = Instant::now();
        let output = work();
        (begin.elapsed().as_micros() / PUTS as u128, output)
    };
    (0..3)
        .map(once)
        .min_by_key(|run| run.0)
        .expect("three runs")
}

// The new columns are as long as the old ones, so that the total stays near where it was.
fn text(dice: &mut Dice, total: usize) -> String {
    let mut text = texts::start(&starts::of_total(dice, SIZE, total));
    for _ in 0..PUTS {
        let column = dice.below(SIZE);
        let mut rows: Vec<usize> = (1..total / SIZE).map(|_| dice.below(SIZE)).collect();
        rows.push(column);
        rows.sort();
        rows.dedup();
        text += &line("put", column, &rows);
    }
    text
}
