// The longest replies and the longest texts: eta lists of 999 rows, orders of 1,000 pairs, and runs
// of many puts in one text.

use crate::dice::Dice;
use crate::group::Group;
use crate::puts;
use crate::starts;
use crate::texts::{self, line};
use crate::trial::Trial;
use crate::way::Way;

const SIZE: usize = 1_000;

pub fn replies(group: &mut Group) {
    let mut trials = Vec::new();
    let says = by_hand();
    let mut full_row = texts::diagonal(SIZE);
    for rows in &mut full_row[1..] {
        rows.insert(0, 0);
    }
    for columns in [texts::chain(SIZE), full_row] {
        let text = texts::start(&columns) + "put 0 0 999\nput 999 0\nput 500\nput 0 0\n";
        let ways = [Way::Whole, Way::Pipe, Way::File, Way::Every(997)];
        trials.extend(ways.map(|way| Trial::new(text.as_str(), way).says(&says)));
    }
    // Each pair moves by one column, and by one place.
    let text = texts::start(&texts::chain(SIZE)) + "put 0 999\nput 0 998\nput 0 0\n";
    trials.push(Trial::new(text, Way::Whole));
    let mut turned = texts::start(&texts::chain(SIZE));
    turned += &(0..8)
        .map(|column| line("put", column, &[column, 999]))
        .collect::<String>();
    trials.push(Trial::new(turned, Way::Whole));
    group.all(trials);
    group.need("ELIMINATION", 8);
}

// By hand: the first put takes every row but 0 into the eta list and clears row 0, after which no
// other column has it.
fn by_hand() -> String {
    let eta: Vec<String> = (1..SIZE).map(|row| row.to_string()).collect();
    let mut order: Vec<String> = (1..SIZE).map(|place| format!("{place}:{place}")).collect();
    order.push("0:0".to_string());
    let (eta, order) = (eta.join(" "), order.join(" "));
    let swapped = order.replace("999:999 0:0", "0:999 999:0");
    format!(
        "put 0 ELIMINATION 1000 eta {eta} order {order}\n\
        put 999 PERMUTED 0 eta - order {swapped}\n\
        put 500 SINGULAR 0 eta - order {swapped}\n\
        put 0 SINGULAR 0 eta - order {swapped}\n"
    )
}

pub fn texts(group: &mut Group) {
    let ways = [Way::Random(50_000, 11), Way::Pipe];
    let mut trials = Vec::new();
    for way in ways {
        let text = long_text(&mut group.dice());
        trials.push(Trial::new(text, way));
    }
    let text = many_short(&mut group.dice());
    trials.push(Trial::new(text, Way::File));
    group.all(trials);
    group.need("ELIMINATION", 1_000);
    group.need("put REFUSED 7", 500);
}

// Megabytes in by long lines that are refused, and tens of megabytes out by the orders of the
// accepted ones.
fn long_text(dice: &mut Dice) -> String {
    let mut text = texts::start(&starts::of_total(dice, SIZE, 1_600));
    for number in 0..1_250 {
        let put = puts::loose(dice, SIZE);
        text += &line("put", put.column, &put.rows);
        if number % 4 == 0 {
            let length = 7_000 + dice.below(1_001);
            text += &(texts::filled(&format!("put {}", put.column), length) + "\n");
        }
    }
    text
}

fn many_short(dice: &mut Dice) -> String {
    let mut text = texts::start(&texts::triangle(4));
    for _ in 0..60_000 {
        let put = puts::loose(dice, 4);
        text += &line("put", put.column, &put.rows);
    }
    text
}
