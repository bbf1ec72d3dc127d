// Words that are not the paper's, and lines that have too few or too many.

use super::Damage;
use super::Work::{Line, Word};
use crate::dice::Dice;
use crate::texts::filled;

pub const ALL: &[Damage] = &[
    ("capitals", Word(|word, _| word.to_uppercase())),
    (
        "one capital",
        Word(|word, dice| one_letter(word, dice, str::to_uppercase)),
    ),
    (
        "another letter",
        Word(|word, dice| one_letter(word, dice, |_| "z".to_string())),
    ),
    (
        "a letter gone",
        Word(|word, dice| one_letter(word, dice, |_| String::new())),
    ),
    (
        "a letter doubled",
        Word(|word, dice| one_letter(word, dice, |it| it.repeat(2))),
    ),
    ("a letter more", Word(|word, _| format!("{word}s"))),
    (
        "a blank among it",
        Word(|word, _| format!("{} {}", &word[..1], &word[1..])),
    ),
    (
        "another word",
        Word(|_, dice| {
            dice.pick(&["row", "get", "column", "end", "0", ""])
                .to_string()
        }),
    ),
    ("word twice", Word(|word, _| format!("{word} {word}"))),
    ("word at the end", Line(|line| format!("{line} put\n"))),
    ("word alone", Line(|line| format!("{}\n", word_of(line)))),
    (
        "word and blank alone",
        Line(|line| format!("{} \n", word_of(line))),
    ),
    (
        "word gone",
        Line(|line| line[word_of(line).len() + 1..].to_string() + "\n"),
    ),
    ("two lines in one", Line(|line| format!("{line} {line}\n"))),
    ("two lines as one", Line(|line| format!("{line}{line}\n"))),
    // Of the right shape but for the length, as far as the word allows.
    ("too long by one", Line(|line| filled(line, 8_001) + "\n")),
    ("too long by two", Line(|line| filled(line, 8_002) + "\n")),
    ("too long", Line(|line| filled(line, 16_500) + "\n")),
    (
        "longer than a read",
        Line(|line| filled(line, 65_600) + "\n"),
    ),
];

fn one_letter(word: &str, dice: &mut Dice, other: fn(&str) -> String) -> String {
    let place = dice.below(word.len());
    word[..place].to_string() + &other(&word[place..=place]) + &word[place + 1..]
}

fn word_of(line: &str) -> &str {
    line.split(' ').next().unwrap_or(line)
}
