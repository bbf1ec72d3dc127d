// How a Rust program keeps a basis: a register of size 3, the four replacements of
// examples/paper.txt, and the sheet of what came of them, written and read back. It prints
// examples/replace.out. The functions are those of include/scrollbobbin.h, which tells them in full.
//
//     tests/library
//     rustc -O --edition 2021 -L native=target/staticlib -l static=cabi -o target/replace-rs examples/replace.rs
//     target/replace-rs

#[rustfmt::skip]
extern "C" {
    fn scrollbobbin_replace(
        size: usize, col_starts: *mut u16, col_starts_length: usize, col_rows: *mut u16, col_rows_length: usize,
        row_starts: *mut u16, row_starts_length: usize, row_cols: *mut u16, row_cols_length: usize,
        order_rows: *mut u16, order_rows_length: usize, order_cols: *mut u16, order_cols_length: usize,
        column: usize, new_rows: *const u16, new_rows_length: usize, eta: *mut u16, eta_length: usize,
        bump: *mut usize, eta_count: *mut usize,
    ) -> usize;
    fn scrollbobbin_write_sheet(
        size: usize, col_starts: *const u16, col_starts_length: usize, col_rows: *const u16, col_rows_length: usize,
        row_starts: *const u16, row_starts_length: usize, row_cols: *const u16, row_cols_length: usize,
        order_rows: *const u16, order_rows_length: usize, order_cols: *const u16, order_cols_length: usize,
        bytes: *mut u8, bytes_length: usize, count: *mut usize,
    ) -> usize;
    fn scrollbobbin_read_sheet(
        bytes: *const u8, bytes_length: usize,
        col_starts: *mut u16, col_starts_length: usize, col_rows: *mut u16, col_rows_length: usize,
        row_starts: *mut u16, row_starts_length: usize, row_cols: *mut u16, row_cols_length: usize,
        order_rows: *mut u16, order_rows_length: usize, order_cols: *mut u16, order_cols_length: usize,
        size: *mut usize,
    ) -> usize;
}

// The replies 100, 101 and 102; all below are refusals.
const VERDICTS: [&str; 3] = ["SINGULAR", "PERMUTED", "ELIMINATION"];

// The library keeps nothing: the register is in lists of ours, lent at each call. That one struct
// owns them makes its calls safe: no two overlap, and nobody else has them while one is written to.
struct Basis {
    size: usize,
    // The starts and rows of the columns, those of the rows, and the order's rows and columns.
    lists: [Vec<u16>; 6],
}

// How many places of each list a register needs. The lists may have more.
fn places(size: usize, total: usize) -> [usize; 6] {
    [size + 1, total, size + 1, total, size, size]
}

#[rustfmt::skip]
impl Basis {
    // Lists that hold zeros, with room for a register of the size and for every entry that it can have.
    fn with_room(size: usize) -> Basis {
        Basis { size, lists: places(size, size * size).map(|count| vec![0; count]) }
    }

    // The verdict with the bump and the eta rows, or a refusal by its number. After PERMUTED a solver
    // has nothing to compute. After ELIMINATION it clears the row paired with the column by the eta
    // rows, each with a factor of its own. SINGULAR and a refusal change nothing.
    fn replace(&mut self, column: usize, new_rows: &[u16]) -> Result<(&'static str, usize, Vec<u16>), usize> {
        let [a, b, c, d, e, f] = &mut self.lists;
        let (mut eta, mut bump, mut eta_count) = (vec![0; self.size], 0, 0);
        let reply = unsafe {
            scrollbobbin_replace(
                self.size, a.as_mut_ptr(), a.len(), b.as_mut_ptr(), b.len(), c.as_mut_ptr(), c.len(),
                d.as_mut_ptr(), d.len(), e.as_mut_ptr(), e.len(), f.as_mut_ptr(), f.len(),
                column, new_rows.as_ptr(), new_rows.len(), eta.as_mut_ptr(), eta.len(), &mut bump, &mut eta_count)
        };
        eta.truncate(eta_count);
        if reply < 100 { Err(reply) } else { Ok((VERDICTS[reply - 100], bump, eta)) }
    }

    // The sheet, by which another office has the same register. No number of it takes over two bytes.
    fn write_sheet(&self) -> Result<Vec<u8>, usize> {
        let [a, b, c, d, e, f] = &self.lists;
        let (mut bytes, mut count) = (vec![0; 2 * (1 + 3 * self.size + b.len())], 0);
        let reply = unsafe {
            scrollbobbin_write_sheet(
                self.size, a.as_ptr(), a.len(), b.as_ptr(), b.len(), c.as_ptr(), c.len(),
                d.as_ptr(), d.len(), e.as_ptr(), e.len(), f.as_ptr(), f.len(),
                bytes.as_mut_ptr(), bytes.len(), &mut count)
        };
        bytes.truncate(count);
        if reply == 0 { Ok(bytes) } else { Err(reply) }
    }

    // The register of the sheet takes the place of the one that was here, if the lists have room.
    fn read_sheet(&mut self, bytes: &[u8]) -> Result<(), usize> {
        let [a, b, c, d, e, f] = &mut self.lists;
        let mut size = 0;
        let reply = unsafe {
            scrollbobbin_read_sheet(
                bytes.as_ptr(), bytes.len(), a.as_mut_ptr(), a.len(), b.as_mut_ptr(), b.len(), c.as_mut_ptr(), c.len(),
                d.as_mut_ptr(), d.len(), e.as_mut_ptr(), e.len(), f.as_mut_ptr(), f.len(), &mut size)
        };
        if reply == 0 { self.size = size; Ok(()) } else { Err(reply) }
    }

    // The register alone: the places past the total are no part of it.
    fn used(&self) -> Vec<&[u16]> {
        let total = self.lists[0][self.size].into();
        self.lists.iter().zip(places(self.size, total)).map(|(list, count)| &list[..count]).collect()
    }
}

// One line of the desk for each replacement.
fn put(basis: &mut Basis, column: usize, new_rows: &[u16]) {
    let (verdict, bump, eta) = match basis.replace(column, new_rows) {
        Err(refusal) => return println!("put {column} REFUSED {refusal}"),
        Ok(replaced) => replaced,
    };
    let none = if eta.is_empty() { " -" } else { "" };
    let eta: String = eta.iter().map(|row| format!(" {row}")).collect();
    // Back substitution takes these pairs from the last place to the first.
    let pairs = basis.lists[4].iter().zip(&basis.lists[5]);
    let order: String = pairs.map(|(r, c)| format!(" {r}:{c}")).collect();
    println!("put {column} {verdict} {bump} eta{eta}{none} order{order}");
}

fn main() {
    // The columns {0}, {0, 1} and {1, 2}; by rows {0, 1}, {1, 2} and {2}. Row t is paired with
    // column t. The places past the five entries are for the replacements to come.
    let mut basis = Basis::with_room(3);
    basis.lists[0].copy_from_slice(&[0, 1, 3, 5]);
    basis.lists[1][..5].copy_from_slice(&[0, 0, 1, 1, 2]);
    basis.lists[2].copy_from_slice(&[0, 2, 4, 5]);
    basis.lists[3][..5].copy_from_slice(&[0, 1, 1, 2, 2]);
    basis.lists[4].copy_from_slice(&[0, 1, 2]);
    basis.lists[5].copy_from_slice(&[0, 1, 2]);
    put(&mut basis, 0, &[0, 2]);
    put(&mut basis, 0, &[1, 2]);
    put(&mut basis, 2, &[0]);
    put(&mut basis, 3, &[0]);

    let sheet = basis.write_sheet().expect("a sound register has a sheet");
    let bytes: String = sheet.iter().map(|byte| format!(" {byte:02x}")).collect();
    println!("sheet{bytes}");
    let mut other = Basis::with_room(3);
    assert_eq!(other.read_sheet(&sheet), Ok(()));
    assert_eq!(other.used(), basis.used());
    println!("the register read back is the same");
}
