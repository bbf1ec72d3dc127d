// The ways to hand a text over: in parts of chosen lengths, of which each read gets one, or through
// a pipe or a file.

use crate::dice::Dice;

// A part fits into the program's read buffer and into a socket's.
const LONGEST_PART: usize = 60_000;

#[derive(Clone, Debug)]
pub enum Way {
    Whole,
    Every(usize),
    // The first part has so many bytes, the second the rest.
    SplitAt(usize),
    // Random parts up to the given length, from the given seed.
    Random(usize, u64),
    Pipe,
    File,
    // The input stays open after the text, and the program must end by itself.
    Open,
    // The text's last byte comes again and again until the program ends.
    Endless,
}

impl Way {
    pub fn any(dice: &mut Dice, length: usize) -> Way {
        // A long text byte by byte would take its time and try nothing new.
        let few = [1, 2, 3, 7];
        let many = [997, 4_096, 8_000, 8_001];
        match dice.below(10) {
            0..=3 if length < 4_000 => Way::Every(dice.pick(&few)),
            0..=1 => Way::Every(dice.pick(&many)),
            4..=5 => Way::Random(2 + dice.below(length / 4 + 20), dice.next()),
            6 => Way::Pipe,
            7 => Way::File,
            _ => Way::Whole,
        }
    }

    // One of each, for texts that are worth it.
    pub fn each(dice: &mut Dice, length: usize) -> Vec<Way> {
        let mut ways = vec![Way::Whole, Way::Pipe, Way::File];
        ways.extend([1, 2, 3, 7].map(Way::Every));
        ways.push(Way::Random(2 + length / 5, dice.next()));
        ways
    }

    // No part is empty, because an empty one is the end of the input.
    pub fn parts<'a>(&self, text: &'a [u8]) -> Vec<&'a [u8]> {
        match *self {
            Way::Every(length) => text.chunks(length).collect(),
            Way::SplitAt(place) => {
                let (first, rest) = text.split_at(place);
                let both = first.chunks(LONGEST_PART).chain(rest.chunks(LONGEST_PART));
                both.collect()
            }
            Way::Random(longest, seed) => random_parts(text, longest, seed),
            _ => text.chunks(LONGEST_PART).collect(),
        }
    }
}

fn random_parts(text: &[u8], longest: usize, seed: u64) -> Vec<&[u8]> {
    let mut dice = Dice::new(seed);
    let mut parts = Vec::new();
    let mut rest = text;
    while !rest.is_empty() {
        let length = 1 + dice.below(longest.min(LONGEST_PART));
        let (part, after) = rest.split_at(length.min(rest.len()));
        parts.push(part);
        rest = after;
    }
    parts
}
