// Good lines out of turn: each stands where another sort of line, or another column, is due.

use super::Damage;
use super::Work::Only;

pub const ALL: &[Damage] = &[
    (
        "order of two numbers",
        Only("order", |rest| format!("order{rest} 0\n")),
    ),
    (
        "col for order",
        Only("order", |rest| format!("col{rest}\n")),
    ),
    (
        "put for order",
        Only("order", |rest| format!("put{rest}\n")),
    ),
    (
        "col before order",
        Only("order", |rest| format!("col 0 0\norder{rest}\n")),
    ),
    ("order for col", Only("col", |_| "order 3\n".to_string())),
    ("put for col", Only("col", |rest| format!("put{rest}\n"))),
    (
        "order before col",
        Only("col", |rest| format!("order 1\ncol{rest}\n")),
    ),
    (
        "put before col",
        Only("col", |rest| format!("put 0 0\ncol{rest}\n")),
    ),
    ("order for put", Only("put", |_| "order 3\n".to_string())),
    ("col for put", Only("put", |rest| format!("col{rest}\n"))),
    (
        "order before put",
        Only("put", |rest| format!("order 1\nput{rest}\n")),
    ),
    (
        "col before put",
        Only("put", |rest| format!("col 0 0\nput{rest}\n")),
    ),
    ("next column", Only("col", |rest| other_column(rest, 1))),
    (
        "column after next",
        Only("col", |rest| other_column(rest, 2)),
    ),
    (
        "column before",
        Only("col", |rest| other_column(rest, 65_535)),
    ),
    (
        "column by 256 more",
        Only("col", |rest| other_column(rest, 256)),
    ),
];

// So many columns on, and round by 16 bits.
fn other_column(numbers: &str, more: u16) -> String {
    let mut words: Vec<String> = numbers.split(' ').map(str::to_string).collect();
    let column: u16 = words[1].parse().expect("a good line has its column");
    words[1] = column.wrapping_add(more).to_string();
    format!("col{}\n", words.join(" "))
}
