// The examples that the README shows, each with the reply lines that stand beside it.

use crate::group::Group;
use crate::trial::Trial;
use crate::way::Way;
use std::fs;

const NAMES: [&str; 4] = ["paper", "verdicts", "refused", "blend"];

pub fn group(group: &mut Group) {
    let mut trials = Vec::new();
    for name in NAMES {
        let read = |end: &str| fs::read_to_string(format!("examples/{name}.{end}"));
        let (Ok(text), Ok(says)) = (read("txt"), read("out")) else {
            return group.fail(format!("examples/{name} is not there"));
        };
        for way in Way::each(&mut group.dice(), text.len()) {
            trials.push(Trial::new(text.as_str(), way).about(name).says(&says));
        }
    }
    group.all(trials);
}
