// Damaged texts: bytes and lines changed at random, each sort of bad line in every part of a text,
// and a small text cut at every byte and changed in every byte.

use crate::damage::{self, Damage};
use crate::dice::Dice;
use crate::group::Group;
use crate::lines;
use crate::paper::EXAMPLE;
use crate::random::small_text;
use crate::trial::Trial;
use crate::way::Way;

// What a slip of the pen or of a program leaves behind.
const SLIPS: &[u8] = b"\n\n\n   0012359\0\t\r+-.,:/ocrdelputOP\x0b\x0c\x7f\x80\xff";

pub fn bytes(group: &mut Group) {
    group.many(2_000, |dice| {
        let mut text = small_text(dice).into_bytes();
        for _ in 0..1 + dice.below(4) / 3 {
            slip(dice, &mut text);
        }
        Trial::any_way(text, dice)
    });
    group.need("bad line", 1_000);
}

fn slip(dice: &mut Dice, text: &mut Vec<u8>) {
    let place = dice.below(text.len());
    let byte = match dice.below(3) {
        0 => dice.below(256) as u8,
        _ => dice.pick(SLIPS),
    };
    match dice.below(5) {
        0 => text[place] = byte,
        1 => text.insert(place, byte),
        2 => drop(text.remove(place)),
        3 => text.insert(place, text[place]),
        _ => {
            let last = text.len() - 1;
            text.swap(place, last.min(place + 1));
        }
    }
    if text.is_empty() {
        text.push(byte);
    }
}

pub fn whole_lines(group: &mut Group) {
    group.many(1_000, |dice| {
        let text = small_text(dice).into_bytes();
        let mut lines: Vec<&[u8]> = lines::split(&text).collect();
        let (place, other) = (dice.below(lines.len()), dice.below(lines.len()));
        match dice.below(6) {
            0 => drop(lines.remove(place)),
            1 => lines.insert(place, lines[place]),
            2 => lines.swap(place, other),
            3 => lines.insert(place, lines[other]),
            4 => lines.truncate(place),
            _ => lines.rotate_left(place),
        }
        Trial::any_way(lines.concat(), dice)
    });
    group.need("bad line", 300);
}

pub fn one_line(group: &mut Group) {
    for damage in damage::each() {
        group.many(30, |dice| one_damaged(dice, damage));
    }
    group.many(100, |dice| {
        let text = small_text(dice);
        let number = text.lines().count();
        let trial = Trial::any_way(text.trim_end(), dice).about("last LF wanting");
        trial.ends(&format!("bad line {number}\n"))
    });
}

// Nothing but the damaged line's number is told after what the lines before it gave.
fn one_damaged(dice: &mut Dice, damage: &Damage) -> Trial {
    loop {
        let text = small_text(dice);
        let mut lines: Vec<String> = text.split_inclusive('\n').map(str::to_string).collect();
        let place = dice.below(lines.len());
        if let Some(other) = damage.1.on(lines[place].trim_end(), dice) {
            lines[place] = other;
            let trial = Trial::any_way(lines.concat(), dice).about(damage.0);
            return trial.ends(&format!("bad line {}\n", place + 1));
        }
    }
}

pub fn cut_short(group: &mut Group) {
    let mut trials = Vec::new();
    for length in 0..EXAMPLE.len() {
        let text = &EXAMPLE[..length];
        // The line that is wanting, or that has no LF; whole lines of puts need no more.
        let number = text.matches('\n').count() + 1;
        let plain_end = number > 4 && text.ends_with('\n');
        for way in [Way::Whole, Way::Every(1), Way::Pipe, Way::File] {
            let trial = Trial::new(text, way);
            trials.push(match plain_end {
                true => trial,
                false => trial.ends(&format!("bad line {number}\n")),
            });
        }
    }
    group.all(trials);
}

pub fn every_byte(group: &mut Group) {
    let others = b"\n 019\0\t\r+-/:cpoP\xb0\xff";
    let mut trials = Vec::new();
    for place in 0..EXAMPLE.len() {
        for &other in others {
            let mut text = EXAMPLE.as_bytes().to_vec();
            text[place] = other;
            trials.push(Trial::any_way(text, &mut group.dice()));
        }
    }
    group.all(trials);
    group.need("bad line", 500);
}
