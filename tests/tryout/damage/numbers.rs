// Numbers that are not plain, or that are too large. Some would be the right number for a reader
// whose numbers go round.

use super::Damage;
use super::Work::{Blank, Number};
use crate::dice::Dice;

pub const ALL: &[Damage] = &[
    ("leading zero", Number(|it, _| format!("0{it}"))),
    ("leading zeros", Number(|it, _| format!("00000000{it}"))),
    ("plus", Number(|it, _| format!("+{it}"))),
    ("minus", Number(|it, _| format!("-{it}"))),
    ("hex", Number(|it, _| format!("0x{it}"))),
    ("point", Number(|it, _| format!("{it}.0"))),
    ("power", Number(|it, _| format!("{it}e0"))),
    ("comma", Blank(",")),
    ("comma before a blank", Blank(", ")),
    (
        "letter for a digit",
        Number(|it, _| format!("{}o", &it[1..])),
    ),
    (
        "byte beside the digits",
        Number(|_, dice| dice.pick(&["/", ":"]).to_string()),
    ),
    (
        "such a byte after digits",
        Number(|it, dice| it.to_string() + dice.pick(&["/", ":"])),
    ),
    ("wide digit", Number(|_, _| "\u{ff11}".to_string())),
    (
        "first that is too large",
        Number(|_, _| "65536".to_string()),
    ),
    (
        "five digits",
        Number(|_, dice| (65_537 + dice.below(34_463)).to_string()),
    ),
    (
        "six digits",
        Number(|_, dice| (100_000 + dice.below(900_000)).to_string()),
    ),
    ("round by 16 bits", Number(|it, dice| round(it, dice, 16))),
    ("round by 32 bits", Number(|it, dice| round(it, dice, 32))),
    ("round by 64 bits", Number(|it, dice| round(it, dice, 64))),
    ("forty digits", Number(|_, _| "9".repeat(40))),
    (
        "thousands of digits",
        Number(|it, _| "1".repeat(7_000) + it),
    ),
];

fn round(number: &str, dice: &mut Dice, bits: u32) -> String {
    let number: u128 = number.parse().expect("a good text has numbers");
    let times = 1 + dice.below(5) as u128;
    (number + (times << bits)).to_string()
}
