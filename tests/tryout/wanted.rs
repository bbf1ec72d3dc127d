// What the tryout program must print on a text: the second program's own tryout, from the paper's
// sentences. Its judge is the one that the library is compared with.

use crate::call::{reply_name, Call, Outcome, SIZE_LIMIT, TOTAL_LIMIT};
use crate::lines::{self, Line};
use crate::register::{narrow, Register};
use crate::second;

type Columns = Vec<Vec<usize>>;

pub fn output(text: &[u8]) -> String {
    let mut lines = lines::split(text).map(lines::read);
    let columns = match start(&mut lines) {
        Ok(columns) => columns,
        Err(reply) => return reply,
    };
    let size = columns.len();
    let mut desk = Desk::new(columns);
    let mut said = String::new();
    for (number, line) in (size + 2..).zip(lines) {
        let Some(Line::Put(column, rows)) = line else {
            return said + &bad_line(number);
        };
        said += &desk.put(column, &rows);
    }
    said
}

// A line that is not there is told as one that is wrong.
fn start(lines: &mut impl Iterator<Item = Option<Line>>) -> Result<Columns, String> {
    let Some(Some(Line::Order(size))) = lines.next() else {
        return Err(bad_line(1));
    };
    if size == 0 || size > SIZE_LIMIT {
        return Err(refused_start(1));
    }
    let mut columns = Columns::new();
    for column in 0..size {
        match lines.next() {
            Some(Some(Line::Col(number, rows))) if number == column => columns.push(rows),
            _ => return Err(bad_line(column + 2)),
        }
    }
    match fault(&columns) {
        Some(number) => Err(refused_start(number)),
        None => Ok(columns),
    }
}

fn fault(columns: &Columns) -> Option<usize> {
    let size = columns.len();
    let total: usize = columns.iter().map(Vec::len).sum();
    let malformed = |rows: &Vec<usize>| {
        rows.iter().any(|&row| row >= size) || rows.windows(2).any(|two| two[0] >= two[1])
    };
    if total > TOTAL_LIMIT || columns.iter().any(malformed) {
        return Some(3);
    }
    // With row t paired to column t, a column's greatest row is its own.
    let mut numbered = columns.iter().enumerate();
    let unsound = numbered.any(|(column, rows)| rows.last() != Some(&column));
    unsound.then_some(5)
}

fn bad_line(number: usize) -> String {
    format!("bad line {number}\n")
}

fn refused_start(number: usize) -> String {
    format!("start REFUSED {number}\n")
}

// The register between two puts, in the lists of a call to the judge.
pub struct Desk(Call);

impl Desk {
    pub fn new(columns: Columns) -> Desk {
        let size = columns.len();
        let numbered = columns.iter().enumerate();
        let register = Register {
            size,
            entries: numbered
                .flat_map(|(column, rows)| rows.iter().map(move |&row| (row, column)))
                .collect(),
            rows: (0..size).collect(),
            cols: (0..size).collect(),
        };
        let mut lists = register.lists();
        lists.col_rows.resize(TOTAL_LIMIT, 0);
        lists.row_cols.resize(TOTAL_LIMIT, 0);
        Desk(Call {
            size,
            column: 0,
            new_rows: vec![],
            lists,
        })
    }

    pub fn put(&mut self, column: usize, rows: &[usize]) -> String {
        self.0.column = column;
        self.0.new_rows = narrow(rows);
        let outcome = second::replace(&self.0);
        let reply = reply(&self.0, &outcome);
        self.0.lists = outcome.lists;
        reply
    }

    pub fn register(&self) -> Register {
        Register::read(self.0.size, &self.0.lists)
    }
}

fn reply(call: &Call, outcome: &Outcome) -> String {
    let column = call.column;
    if outcome.reply <= 8 {
        return format!("put {column} REFUSED {}\n", outcome.reply);
    }
    let eta = match outcome.eta_count {
        0 => "-".to_string(),
        count => spaced(outcome.lists.eta[..count].iter()),
    };
    let lists = &outcome.lists;
    let pairs = lists.order_rows[..call.size].iter().zip(&lists.order_cols);
    let order = spaced(pairs.map(|(row, column)| format!("{row}:{column}")));
    let verdict = reply_name(outcome.reply);
    format!(
        "put {column} {verdict} {} eta {eta} order {order}\n",
        outcome.bump
    )
}

fn spaced(words: impl Iterator<Item = impl ToString>) -> String {
    words
        .map(|word| word.to_string())
        .collect::<Vec<_>>()
        .join(" ")
}
