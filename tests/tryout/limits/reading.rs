// Lines that lie over the end of the read buffer of 65,536 bytes in every position, and an end of
// input that falls on such an end.

use crate::group::Group;
use crate::texts;
use crate::trial::Trial;
use crate::way::Way;

const BUFFER: usize = 0x10000;
const START: &str = "order 2\ncol 0 0\ncol 1 0 1\n";
const LAST: &str = "put 0 0 1\nput 1 0 1\nput 0 1\nput 65535 65535\n";

pub fn group(group: &mut Group) {
    let mut trials = Vec::new();
    for buffers in [1, 2] {
        for after in 0..=LAST.len() {
            for way in [Way::File, Way::Pipe] {
                let text = up_to(buffers * BUFFER - after) + LAST;
                trials.push(Trial::new(text, way).ends("put 65535 REFUSED 6\n"));
            }
        }
    }
    // The last LF stands in the buffer after, or is wanting.
    for length in [BUFFER - 1, BUFFER, BUFFER + 1] {
        let text = up_to(length);
        trials.push(Trial::new(text.as_str(), Way::File).ends("REFUSED 7\n"));
        let cut = &text[..length - 1];
        let number = text.matches('\n').count();
        trials.push(Trial::new(cut, Way::File).ends(&format!("bad line {number}\n")));
    }
    group.all(trials);
    group.need("PERMUTED", 100);
}

// A text of exactly so many bytes, of puts that are refused.
fn up_to(length: usize) -> String {
    let mut text = START.to_string();
    while length - text.len() > 9_000 {
        text += &(texts::filled("put 0", 5_000) + "\n");
    }
    let half = (length - text.len()) / 2;
    text += &(texts::filled("put 1", half) + "\n");
    let rest = length - text.len() - 1;
    text + &texts::filled("put 0", rest) + "\n"
}
