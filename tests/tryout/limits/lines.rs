// Lines of 7,999, 8,000 and 8,001 bytes in each role, with their LF and without, in parts that end
// near these places; and the most rows that a line can hold.

use crate::group::Group;
use crate::texts;
use crate::trial::Trial;
use crate::way::Way;

const LENGTHS: [usize; 7] = [3_999, 7_998, 7_999, 8_000, 8_001, 8_002, 16_001];

fn ways() -> Vec<Way> {
    let mut ways = vec![Way::Whole, Way::Pipe, Way::File, Way::Random(3_000, 5)];
    ways.extend([1, 7, 4_000, 7_999, 8_000, 8_001, 8_002].map(Way::Every));
    ways.extend([8_000, 8_008, 8_016, 8_017].map(Way::SplitAt));
    ways
}

pub fn group(group: &mut Group) {
    let mut trials = Vec::new();
    for length in LENGTHS {
        trials.extend(of_length(length));
    }
    trials.extend(many_rows());
    trials.extend(long_words());
    group.all(trials);
    for reply in [
        "start REFUSED 3",
        "put REFUSED 6",
        "put REFUSED 7",
        "bad line",
    ] {
        group.need(reply, 40);
    }
}

// In each role: the only col line, the last of two, a put of a good column and of one too large.
fn of_length(length: usize) -> Vec<Trial> {
    let roles = [
        ("order 1\n", "col 0", "start REFUSED 3\n"),
        ("order 2\ncol 0 0\n", "col 1", "start REFUSED 3\n"),
        ("order 1\ncol 0 0\n", "put 0", "put 0 REFUSED 7\n"),
        ("order 1\ncol 0 0\n", "put 65535", "put 65535 REFUSED 6\n"),
        (
            "order 1\ncol 0 0\nput 0 0\n",
            "put 1 1",
            "put 1 REFUSED 6\n",
        ),
    ];
    let mut trials = Vec::new();
    for (before, head, reply) in roles {
        let line = texts::filled(head, length);
        assert_eq!(line.len(), length);
        let bad = format!("bad line {}\n", before.lines().count() + 1);
        let known = if length <= 8_000 { reply } else { bad.as_str() };
        let fitting = ways()
            .into_iter()
            .filter(|way| fits(way, before.len() + length));
        for way in fitting {
            let text = format!("{before}{line}\n");
            trials.push(Trial::new(text, way).ends(known));
        }
        for way in [Way::Whole, Way::Pipe, Way::Every(8_000), Way::Every(8_001)] {
            let text = format!("{before}{line}");
            trials.push(Trial::new(text, way).ends(&bad).about("no LF"));
        }
    }
    trials
}

// A split past the end would be none; and byte by byte a few are enough.
fn fits(way: &Way, length: usize) -> bool {
    match way {
        Way::SplitAt(place) => *place < length,
        Way::Every(1) => length < 8_010,
        _ => true,
    }
}

// Every put of the text holds 3,997 rows, and the next is read as well.
fn many_rows() -> Vec<Trial> {
    let columns = texts::chain(12);
    let rising: Vec<usize> = (0..1_000).collect();
    let mut text = texts::start(&columns);
    for head in ["put 0", "put 0 0 1", "put 11 11", "put 12", "put 5"] {
        text += &(texts::filled(head, 8_000) + "\n");
        text += &(texts::filled(head, 7_999) + "\n");
        text += &texts::line("put", 0, &rising);
    }
    text += "put 0 0 11\n";
    let eta = "1 2 3 4 5 6 7 8 9 10 11";
    let order = "1:1 2:2 3:3 4:4 5:5 6:6 7:7 8:8 9:9 10:10 11:11 0:0";
    let known = format!("put 0 ELIMINATION 12 eta {eta} order {order}\n");
    let ways = ways()
        .into_iter()
        .filter(|way| !matches!(way, Way::Every(1)));
    ways.map(|way| Trial::new(text.as_str(), way).ends(&known))
        .collect()
}

// Lines without a blank or without a number, too long or not.
fn long_words() -> Vec<Trial> {
    let mut trials = Vec::new();
    for length in [7_999, 8_000, 8_001, 8_002, 65_535, 65_536, 200_000] {
        for byte in ["0", "1", "a", " ", "\0", "p"] {
            for end in ["", "\n"] {
                let long = byte.repeat(length) + end;
                let first = Trial::new(long.as_str(), Way::Whole);
                trials.push(first.says("bad line 1\n"));
                let text = format!("order 1\ncol 0 0\nput 0 0\n{long}");
                let last = Trial::new(text, Way::File);
                trials.push(last.ends("bad line 4\n"));
            }
        }
    }
    trials
}
