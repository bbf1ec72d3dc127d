// One listing: its parts, and whether it is well formed. Entries are compared with their neighbours
// in one run over the whole list, which the compiler turns into vector code.

use crate::replies::MAX_TOTAL;

pub fn part<'a>(starts: &[u16], entries: &'a [u16], k: usize) -> &'a [u16] {
    &entries[starts[k].into()..starts[k + 1].into()]
}

// Whether the numbers strictly rise.
pub fn rises(numbers: &[u16]) -> bool {
    falls(numbers) == 0
}

// How many numbers are not over the one before: fewer than 65,536 in any list that comes here.
fn falls(numbers: &[u16]) -> u16 {
    let next = numbers.get(1..).unwrap_or(&[]);
    numbers
        .iter()
        .zip(next)
        .map(|(a, b)| u16::from(b <= a))
        .sum()
}

// Whether the starts begin with 0, never fall and end within the limit.
pub fn starts_right(starts: &[u16]) -> bool {
    let drops: u16 = starts
        .iter()
        .zip(&starts[1..])
        .map(|(a, b)| u16::from(b < a))
        .sum();
    starts[0] == 0 && drops == 0 && usize::from(starts[starts.len() - 1]) <= MAX_TOTAL
}

// Whether the entries of each part strictly rise and are all below m.
pub fn parts_right(m: usize, starts: &[u16], entries: &[u16]) -> bool {
    // Where a part begins, a fall is no fault.
    let mut between = 0;
    for part in starts.windows(2) {
        let from = usize::from(part[0]);
        if 0 < from && part[0] < part[1] {
            between += u16::from(entries[from] <= entries[from - 1]);
        }
    }
    let greatest = entries.iter().fold(0, |top, &x| x.max(top));
    falls(entries) == between && usize::from(greatest) < m
}
