// Sizes in and out of limits, and first lines that are of another shape whatever their size.

use crate::group::Group;
use crate::puts;
use crate::starts;
use crate::texts;
use crate::trial::Trial;
use crate::way::Way;

const REFUSED: [&str; 9] = [
    "order 0\n",
    "order 1001\n",
    "order 1002\n",
    "order 1024\n",
    "order 9999\n",
    "order 10000\n",
    "order 65534\n",
    "order 65535\n",
    "order 1001\ncol 0 0\n",
];

const BAD: [&str; 22] = [
    "",
    "\n",
    "\n\n",
    "\norder 1\ncol 0 0\n",
    " ",
    "order",
    "order\n",
    "order \n",
    "order 0",
    "order 1",
    "order 1001",
    "order 0 \n",
    "order 0 0\n",
    "order 1 1\n",
    "order 00\n",
    "order 01\n",
    "order 65536\n",
    "order 65537\ncol 0 0\n",
    "order 66536\n",
    "order 4294967297\ncol 0 0\n",
    "order -1\n",
    "order x\n",
];

pub fn group(group: &mut Group) {
    let mut trials = Vec::new();
    for (texts, says) in [
        (&REFUSED[..], "start REFUSED 1\n"),
        (&BAD[..], "bad line 1\n"),
    ] {
        for text in texts {
            for way in Way::each(&mut group.dice(), text.len()) {
                trials.push(Trial::new(*text, way).says(says));
            }
            let more = format!("{text}put 0 0\nrubbish");
            if text.ends_with('\n') {
                trials.push(Trial::new(more, Way::Whole).says(says));
            }
        }
    }
    for size in [1, 999, 1_000] {
        let ways = [Way::Whole, Way::Pipe, Way::File, Way::Every(1)];
        trials.extend(ways.map(|way| accepted(group, size, way)));
    }
    trials.extend(wanting(1_000));
    group.all(trials);
    group.need("put REFUSED 6", 4);
    group.need("PERMUTED", 8);
}

fn accepted(group: &mut Group, size: usize, way: Way) -> Trial {
    let mut dice = group.dice();
    let columns = starts::of_total(&mut dice, size, size + (size - 1).min(1_500));
    let mut text = texts::start(&columns);
    for column in [0, size / 2, size - 1] {
        text += &texts::line("put", column, &columns[column]);
        let put = puts::loose(&mut dice, size);
        text += &texts::line("put", put.column, &put.rows);
    }
    let last = texts::line("put", size, &[0]);
    Trial::new(text + &last, way).ends(&format!("put {size} REFUSED 6\n"))
}

// Of the largest size, with the last lines wanting, and the last LF.
fn wanting(size: usize) -> Vec<Trial> {
    let text = texts::start(&texts::diagonal(size));
    let lines: Vec<&str> = text.split_inclusive('\n').collect();
    let some = [1, 2, size / 2, size - 1, size];
    let mut trials: Vec<Trial> = some
        .iter()
        .map(|&kept| {
            let known = format!("bad line {}\n", kept + 1);
            Trial::new(lines[..kept].concat(), Way::Whole).says(&known)
        })
        .collect();
    let known = format!("bad line {}\n", size + 1);
    trials.push(Trial::new(text.trim_end(), Way::File).says(&known));
    trials
}
