// Texts and their lines, written out. Columns and rows are wide numbers here: a text may ask for
// more than the register takes.

pub fn line(word: &str, column: usize, rows: &[usize]) -> String {
    let mut line = format!("{word} {column}");
    for row in rows {
        line += &format!(" {row}");
    }
    line + "\n"
}

pub fn start(columns: &[Vec<usize>]) -> String {
    let mut text = format!("order {}\n", columns.len());
    for (column, rows) in columns.iter().enumerate() {
        text += &line("col", column, rows);
    }
    text
}

// The line with rows 0 after it, up to exactly so many bytes with no LF; where they do not come out
// even, the last row is 10.
pub fn filled(head: &str, length: usize) -> String {
    let wanting = length - head.len();
    assert!(wanting >= 5, "a line leaves room for rows");
    let end = if wanting % 2 == 0 { " 0" } else { " 10" };
    head.to_string() + &" 0".repeat((wanting - end.len()) / 2) + end
}

// A triangle that is full.
pub fn triangle(size: usize) -> Vec<Vec<usize>> {
    (0..size).map(|column| (0..=column).collect()).collect()
}

// Each column has its own row and the row before.
pub fn chain(size: usize) -> Vec<Vec<usize>> {
    (0..size)
        .map(|column: usize| (column.saturating_sub(1)..=column).collect())
        .collect()
}

pub fn diagonal(size: usize) -> Vec<Vec<usize>> {
    (0..size).map(|column| vec![column]).collect()
}
