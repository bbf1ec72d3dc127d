// The tables, in Markdown.

use crate::groups::{Group, Input, Sheet};
use crate::registers::Register;

pub fn inputs(groups: &[Group]) {
    let (order, pair) = ("order changes in", "pairs change in");
    head(
        "What was drawn",
        &[
            "register", "verdict", "inputs", "new rows", order, pair, "eta rows",
        ],
    );
    for group in groups {
        let count = |has: fn(&&Input) -> bool| group.inputs.iter().filter(has).count().to_string();
        row(&[
            group.register.name.clone(),
            group.verdict.to_string(),
            group.inputs.len().to_string(),
            spread(&group.inputs, 0, |input| input.draw.new_rows.len() as f64),
            count(|input| input.draw.order_changes),
            count(|input| input.draw.pairs_change),
            spread(&group.inputs, 0, |input| input.draw.reply.eta_count as f64),
        ]);
    }
}

pub fn replacements(groups: &[Group]) {
    let (ours, theirs) = ("replace / check, library", "replace / check, plain");
    let times = ["library, us", "plain, us", "library / plain"];
    head(
        "Replacement",
        &[&["register", "verdict"], &times[..], &[ours, theirs]].concat(),
    );
    for group in groups {
        let of = |digits, number: fn(&Input) -> f64| spread(&group.inputs, digits, number);
        row(&[
            group.register.name.clone(),
            group.verdict.to_string(),
            of(1, |input| input.replace.library / 1e3),
            of(1, |input| input.replace.plain / 1e3),
            of(2, |input| input.replace.ratio()),
            of(2, |input| input.replace.library / input.check.library),
            of(2, |input| input.replace.plain / input.check.plain),
        ]);
    }
}

pub fn checks(registers: &[Register], groups: &[Group]) {
    head(
        "Check alone",
        &["register", "library, us", "plain, us", "library / plain"],
    );
    for register in registers {
        let own = groups
            .iter()
            .filter(|group| group.register.name == register.name);
        let inputs: Vec<&Input> = own.flat_map(|group| &group.inputs).collect();
        row(&[
            register.name.clone(),
            spread(&inputs, 1, |input| input.check.library / 1e3),
            spread(&inputs, 1, |input| input.check.plain / 1e3),
            spread(&inputs, 2, |input| input.check.ratio()),
        ]);
    }
}

pub fn sheets(sheets: &[Sheet]) {
    let rates = ["library, MB/s", "plain, MB/s", "time, library / plain"];
    head(
        "Sheets",
        &[&["register", "bytes", "call"], &rates[..]].concat(),
    );
    for sheet in sheets {
        for (call, least) in [("write", &sheet.write), ("read", &sheet.read)] {
            let rate = |time| format!("{:.0}", sheet.bytes as f64 * 1e3 / time);
            row(&[
                sheet.register.name.clone(),
                sheet.bytes.to_string(),
                call.to_string(),
                rate(least.library),
                rate(least.plain),
                format!("{:.2}", least.ratio()),
            ]);
        }
    }
}

fn head(title: &str, names: &[&str]) {
    println!("\n## {title}\n\n| {} |", names.join(" | "));
    println!("|{}", "---|".repeat(names.len()));
}

fn row(cells: &[String]) {
    println!("| {} |", cells.join(" | "));
}

// The median, and in brackets the 10th and the 90th of a hundred.
fn spread<T>(inputs: &[T], digits: usize, number: impl Fn(&T) -> f64) -> String {
    let mut numbers: Vec<f64> = inputs.iter().map(number).collect();
    numbers.sort_by(f64::total_cmp);
    let at = |part: f64| numbers[((numbers.len() - 1) as f64 * part).round() as usize];
    let (low, middle, high) = (at(0.1), at(0.5), at(0.9));
    format!("{middle:.digits$} ({low:.digits$} to {high:.digits$})")
}
