// What each number of a sheet stands for, laid out by the size and the counts whatever is wrong
// with them. Faults are looked for afterwards, all of them, each with the place of its number.

use crate::call::{SIZE_LIMIT, TOTAL_LIMIT};
use crate::register::{Entries, Register};

// `place` is that of the count. There are fewer rows than the count says where the numbers end.
struct Column {
    place: usize,
    count: usize,
    rows: Vec<usize>,
}

pub struct Layout {
    size: Option<usize>,
    columns: Vec<Column>,
    order: Vec<usize>,
    order_place: usize,
}

impl Layout {
    // A size out of limits lays out nothing after it.
    pub fn of(numbers: &[usize]) -> Layout {
        let size = numbers.first().copied();
        let lines = size.filter(|&size| size <= SIZE_LIMIT).unwrap_or(0);
        let mut place = 1;
        let mut columns = Vec::new();
        for _ in 0..lines {
            let column = column(numbers, place);
            place += 1 + column.count;
            columns.push(column);
        }
        Layout {
            size,
            columns,
            order: part(numbers, place, 2 * lines).to_vec(),
            order_place: place,
        }
    }

    // How many numbers the sheet has to have.
    pub fn needed(&self) -> usize {
        self.order_place + 2 * self.columns.len()
    }

    // The place and the reply of every number that is out of its range.
    pub fn faults(&self) -> Vec<(usize, usize)> {
        let size = self.columns.len();
        let mut faults = Vec::new();
        if self.size.is_some() && size == 0 {
            faults.push((0, 1));
        }
        let mut total = 0;
        for column in &self.columns {
            total += column.count;
            if column.count > size || total > TOTAL_LIMIT {
                faults.push((column.place, 11));
            }
            faults.extend(too_large(&column.rows, size, column.place + 1));
        }
        faults.extend(too_large(&self.order, size, self.order_place));
        faults
    }

    // Of a sheet without faults that has all the numbers it needs.
    pub fn register(&self) -> Register {
        let mut entries = Entries::new();
        for (number, column) in self.columns.iter().enumerate() {
            entries.extend(column.rows.iter().map(|&row| (row, number)));
        }
        let every_second = |first: usize| self.order.iter().skip(first).step_by(2).copied();
        Register {
            size: self.columns.len(),
            entries,
            rows: every_second(0).collect(),
            cols: every_second(1).collect(),
        }
    }
}

// Row number k of a column is the sum of its first k + 1 numbers and of the k ones that the gaps
// lack.
fn column(numbers: &[usize], place: usize) -> Column {
    let count = numbers.get(place).copied().unwrap_or(0);
    let mut sum = 0;
    let mut rows = Vec::new();
    for (k, &number) in part(numbers, place + 1, count).iter().enumerate() {
        sum += number;
        rows.push(sum + k);
    }
    Column { place, count, rows }
}

// So many numbers from the place on, or as many of them as there are.
fn part(numbers: &[usize], place: usize, length: usize) -> &[usize] {
    let begin = place.min(numbers.len());
    let end = (place + length).min(numbers.len());
    &numbers[begin..end]
}

fn too_large(
    numbers: &[usize],
    size: usize,
    place: usize,
) -> impl Iterator<Item = (usize, usize)> + '_ {
    let large = move |&(_, &number): &(usize, &usize)| number >= size;
    let places = numbers.iter().enumerate().filter(large);
    places.map(move |(at, _)| (place + at, 11))
}
