// Totals of whole starts at the limit and over it; some over it would pass for a number that goes
// round.

use crate::group::Group;
use crate::starts::of_total;
use crate::texts;
use crate::trial::Trial;

const TAKEN: &str = "";
const MALFORMED: &str = "start REFUSED 3\n";
const UNSOUND: &str = "start REFUSED 5\n";

// Over 65,536 and over twice that, by less than the limit.
const TOO_MANY: [usize; 7] = [12_001, 65_535, 65_536, 65_537, 66_500, 77_536, 131_600];

pub fn group(group: &mut Group) {
    let mut dice = group.dice();
    let mut starts = Vec::new();
    // A full triangle has size * (size + 1) / 2 entries.
    starts.push((texts::triangle(154), TAKEN));
    for size in [155, 361, 362, 380, 512] {
        starts.push((texts::triangle(size), MALFORMED));
    }
    for total in [11_999, 12_000] {
        starts.push((of_total(&mut dice, 700, total), TAKEN));
    }
    for total in TOO_MANY {
        starts.push((of_total(&mut dice, 700, total), MALFORMED));
    }
    // One row is wanting, of the first column or of the last.
    for column in [0, 699] {
        for (total, says) in [(12_001, UNSOUND), (12_002, MALFORMED)] {
            let mut columns = of_total(&mut dice, 700, total);
            columns[column].pop();
            starts.push((columns, says));
        }
    }
    // A million entries, and nearly four.
    starts.push((vec![(0..1_000).collect(); 1_000], MALFORMED));
    starts.push((vec![vec![0; 3_990]; 1_000], MALFORMED));
    let trials = starts.into_iter().map(|(columns, says)| {
        let text = texts::start(&columns);
        Trial::any_way(text, &mut dice).says(says)
    });
    group.all(trials.collect());
}
