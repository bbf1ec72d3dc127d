// Damage to one line that makes it a bad line, whatever line of a good text it is.

mod blanks;
mod numbers;
mod turns;
mod words;

use crate::dice::Dice;

pub type Damage = (&'static str, Work);

// What is given otherwise. The first and the last give the LF themselves, or leave it out.
pub enum Work {
    // The line, which comes without its LF.
    Line(fn(&str) -> String),
    // Nothing, but this stands before one of the line's bytes.
    Insert(&'static str),
    // One of its blanks.
    Blank(&'static str),
    Number(fn(&str, &mut Dice) -> String),
    Word(fn(&str, &mut Dice) -> String),
    // The whole line, where it begins with the word; what is given is the rest.
    Only(&'static str, fn(&str) -> String),
}

pub fn each() -> impl Iterator<Item = &'static Damage> {
    let all = [blanks::ALL, numbers::ALL, words::ALL, turns::ALL];
    all.into_iter().flatten()
}

impl Work {
    // Nothing where the line is not one to be damaged so.
    pub fn on(&self, line: &str, dice: &mut Dice) -> Option<String> {
        let mut words: Vec<String> = line.split(' ').map(str::to_string).collect();
        let place = 1 + dice.below(words.len() - 1);
        let damaged = match self {
            Work::Line(work) => return Some(work(line)),
            Work::Only(word, work) => return line.strip_prefix(word).map(work),
            Work::Insert(what) => {
                let (before, after) = line.split_at(dice.below(line.len()));
                format!("{before}{what}{after}")
            }
            Work::Blank(what) => words[..place].join(" ") + what + &words[place..].join(" "),
            Work::Number(work) => {
                words[place] = work(&words[place], dice);
                words.join(" ")
            }
            Work::Word(work) => {
                words[0] = work(&words[0], dice);
                words.join(" ")
            }
        };
        Some(damaged + "\n")
    }
}
