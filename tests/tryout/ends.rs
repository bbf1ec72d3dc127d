// A refused start and a bad line end the program by themselves: the input stays open after them,
// or goes on without end, and nothing more of it is waited for.

use crate::dice::Dice;
use crate::group::Group;
use crate::random::small_text;
use crate::texts;
use crate::trial::Trial;
use crate::way::Way;

pub fn group(group: &mut Group) {
    let refused = [
        ("order 0\n", "start REFUSED 1\n"),
        ("order 1001\n", "start REFUSED 1\n"),
        ("order 1\ncol 0 1\n", "start REFUSED 3\n"),
        ("order 2\ncol 0\ncol 1 1 0\n", "start REFUSED 3\n"),
        ("order 1\ncol 0\n", "start REFUSED 5\n"),
        ("order 01\n", "bad line 1\n"),
        ("\n", "bad line 1\n"),
        ("order 2\nput 0\n", "bad line 2\n"),
        ("order 1\ncol 0 0\nput 0 \n", "bad line 3\n"),
    ];
    let mut trials = Vec::new();
    for (text, says) in refused {
        for way in [Way::Open, Way::Endless] {
            trials.push(Trial::new(text, way).says(says));
        }
    }
    trials.extend(without_end());
    group.all(trials);
    group.many(60, bad_at_last);
}

// A line of 8,001 bytes is bad whatever comes after, if anything does.
fn without_end() -> Vec<Trial> {
    let mut trials = Vec::new();
    let start = "order 1\n";
    let put = "order 1\ncol 0 0\nput 0 0\n";
    for (before, head, number) in [("", "order 1", 1), (start, "col 0", 2), (put, "put 0", 4)] {
        let text = before.to_string() + &texts::filled(head, 8_001);
        let bad = format!("bad line {number}\n");
        for way in [Way::Open, Way::Endless] {
            trials.push(Trial::new(text.as_str(), way).ends(&bad));
        }
    }
    for byte in ["0", " ", "\0", "a", "\r"] {
        let text = byte.repeat(8_001);
        trials.push(Trial::new(text, Way::Endless).says("bad line 1\n"));
    }
    trials
}

fn bad_at_last(dice: &mut Dice) -> Trial {
    let text = small_text(dice);
    let number = text.lines().count() + 1;
    let line = dice.pick(&["\n", "put\n", "order 1\n", "col 0 0\n", " \n", "put 00\n"]);
    let way = if dice.coin() { Way::Open } else { Way::Endless };
    Trial::new(text + line, way).ends(&format!("bad line {number}\n"))
}
