// The paper's example and its specimens s1 to s12 as texts, with what they print written out by
// hand; each in every way of handing over, and cut in two at every byte.

use crate::group::Group;
use crate::texts;
use crate::trial::Trial;
use crate::way::Way;

pub const EXAMPLE: &str = "\
order 3
col 0 0
col 1 0 1
col 2 1 2
put 0 0 2
put 0 1 2
put 2 0
put 3 0
";

const EXAMPLE_SAYS: &str = "\
put 0 ELIMINATION 3 eta 1 2 order 1:1 2:2 0:0
put 0 SINGULAR 0 eta - order 1:1 2:2 0:0
put 2 PERMUTED 0 eta - order 1:1 0:2 2:0
put 3 REFUSED 6
";

const A: &str = "order 3\ncol 0 0\ncol 1 0 1\ncol 2 2\n";
const B: &str = "order 3\ncol 0 0\ncol 1 0 1\ncol 2 0 2\n";
const C: &str = "order 3\ncol 0 0\ncol 1 0 1\ncol 2 0 1 2\n";
const D: &str = "order 3\ncol 0 0\ncol 1 0 1\ncol 2 1 2\n";
const E: &str = "order 1\ncol 0 0\n";

// The start, the put and its reply.
const SPECIMENS: [(&str, &str, &str); 12] = [
    (E, "put 0 0", "put 0 PERMUTED 0 eta - order 0:0"),
    (E, "put 0", "put 0 SINGULAR 0 eta - order 0:0"),
    (A, "put 0 0", "put 0 PERMUTED 0 eta - order 0:0 1:1 2:2"),
    (A, "put 0 0 2", "put 0 PERMUTED 0 eta - order 2:2 0:0 1:1"),
    (
        A,
        "put 0 0 1",
        "put 0 ELIMINATION 2 eta 1 order 1:1 2:2 0:0",
    ),
    (A, "put 0 1", "put 0 PERMUTED 0 eta - order 1:0 0:1 2:2"),
    (A, "put 0 2", "put 0 SINGULAR 0 eta - order 0:0 1:1 2:2"),
    (
        B,
        "put 0 1 2",
        "put 0 ELIMINATION 3 eta 1 2 order 1:1 2:2 0:0",
    ),
    (
        C,
        "put 0 2",
        "put 0 ELIMINATION 3 eta 1 2 order 1:1 2:2 0:0",
    ),
    (D, "put 0 2", "put 0 PERMUTED 0 eta - order 2:0 1:2 0:1"),
    (A, "put 0 2 0", "put 0 REFUSED 7"),
    (A, "put 3 2 0", "put 3 REFUSED 6"),
];

pub fn example(group: &mut Group) {
    let mut ways = Way::each(&mut group.dice(), EXAMPLE.len());
    ways.extend((0..=EXAMPLE.len()).map(Way::SplitAt));
    let trial = |way| Trial::new(EXAMPLE, way).says(EXAMPLE_SAYS);
    group.all(ways.into_iter().map(trial).collect());
}

pub fn specimens(group: &mut Group) {
    let mut trials = Vec::new();
    for (number, (start, put, reply)) in (1..).zip(SPECIMENS) {
        let text = format!("{start}{put}\n");
        for way in Way::each(&mut group.dice(), text.len()) {
            let trial = Trial::new(text.as_str(), way).about(&format!("s{number}"));
            trials.push(trial.says(&format!("{reply}\n")));
        }
    }
    trials.extend(few_words(group));
    group.all(trials);
}

// A start alone prints nothing; and a specimen leaves what the next put needs.
fn few_words(group: &mut Group) -> Vec<Trial> {
    let mut trials = Vec::new();
    for start in [A, B, C, D, E, &texts::start(&texts::triangle(20))] {
        for way in Way::each(&mut group.dice(), start.len()) {
            trials.push(Trial::new(start, way).says(""));
        }
    }
    let twice = format!("{A}put 0 2 0\nput 3 2 0\nput 0 0 1\nput 1 0 1\n");
    let says = "put 0 REFUSED 7\nput 3 REFUSED 6\n\
        put 0 ELIMINATION 2 eta 1 order 1:1 2:2 0:0\n\
        put 1 ELIMINATION 3 eta 0 order 2:2 0:0 1:1\n";
    for way in Way::each(&mut group.dice(), twice.len()) {
        trials.push(
            Trial::new(twice.as_str(), way)
                .about("after refusals")
                .says(says),
        );
    }
    trials
}
