// How lists are told in full, before a call and after it, and the first difference between what
// came out and what was wanted.

use std::fmt::Debug;

pub type Named<'a, T> = (&'static str, &'a Vec<T>);

pub const SPILLED: &str = "something was written outside the lent lists";

pub fn told<T: Debug>(lists: &[Named<T>]) -> String {
    let line = |(name, list): &Named<T>| format!("  {name} ({} places) {list:?}\n", list.len());
    lists.iter().map(line).collect()
}

// Lists that the call left alone are not told again.
pub fn told_after<T: Debug + PartialEq>(now: &[Named<T>], then: &[Named<T>]) -> String {
    let mut text = String::new();
    for ((name, now), (_, then)) in now.iter().zip(then) {
        if now == then {
            text += &format!("  {name} unchanged\n");
        } else {
            text += &format!("  {name} {now:?}\n");
        }
    }
    text
}

pub fn told_spilled(spilled: bool) -> &'static str {
    if spilled {
        ", wrote outside the lent lists\n"
    } else {
        "\n"
    }
}

// The first of the named numbers that was got and not wanted.
pub fn first_number(numbers: &[(&str, usize, usize)]) -> Option<String> {
    let other = numbers.iter().find(|(_, got, want)| got != want);
    other.map(|(name, got, want)| format!("{name} is {got} and not {want}"))
}

// The first place of the lists that came out otherwise than wanted.
pub fn first_place<T: Debug + PartialEq>(got: &[Named<T>], wanted: &[Named<T>]) -> Option<String> {
    for ((name, got), (_, want)) in got.iter().zip(wanted) {
        if let Some(place) = (0..want.len()).find(|&at| got.get(at) != want.get(at)) {
            let (got, want) = (got.get(place), &want[place]);
            return Some(format!(
                "{name} has {got:?} at place {place} and not {want:?}"
            ));
        }
    }
    None
}
