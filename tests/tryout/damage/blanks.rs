// Blanks and bytes that are none of the paper's: other blanks, ends of line and marks.

use super::Damage;
use super::Work::{Blank, Insert, Line, Word};

pub const ALL: &[Damage] = &[
    ("two spaces", Blank("  ")),
    ("space before", Line(|line| format!(" {line}\n"))),
    ("space after", Line(|line| format!("{line} \n"))),
    ("digit in the word", Word(|word, _| format!("{word}0"))),
    (
        "no first blank",
        Line(|line| line.replacen(' ', "", 1) + "\n"),
    ),
    ("tab", Blank("\t")),
    ("tab before", Line(|line| format!("\t{line}\n"))),
    ("tab after", Line(|line| format!("{line}\t\n"))),
    ("tab beside a blank", Blank(" \t")),
    ("vertical tab", Blank("\x0b")),
    ("form feed", Blank("\x0c")),
    ("wide blank", Blank("\u{2003}")),
    ("blank that does not break", Blank("\u{a0}")),
    ("CR", Blank("\r")),
    ("CR before LF", Line(|line| format!("{line}\r\n"))),
    ("CR after LF", Line(|line| format!("\r{line}\n"))),
    ("CR for LF", Line(|line| format!("{line}\r"))),
    ("NUL for LF", Line(|line| format!("{line}\0"))),
    ("NUL before LF", Line(|line| format!("{line}\0\n"))),
    ("NUL for a blank", Blank("\0")),
    ("NUL", Insert("\0")),
    ("NUL and more", Line(|line| format!("{line}\0 rest\n"))),
    ("LF before", Line(|line| format!("\n{line}\n"))),
    ("LF after the word", Word(|word, _| format!("{word}\n"))),
    ("LF for the line", Line(|_| "\n".to_string())),
    ("blank line", Line(|_| " \n".to_string())),
    ("byte order mark", Line(|line| format!("\u{feff}{line}\n"))),
    ("quotes", Line(|line| format!("\"{line}\"\n"))),
    ("remark", Line(|line| format!("{line} # rows\n"))),
    ("remark alone", Line(|line| format!("# rows\n{line}\n"))),
    ("semicolon", Line(|line| format!("{line};\n"))),
];
