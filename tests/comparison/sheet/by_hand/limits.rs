// The limits of the size and of the total, on sheets too long to be written out.

use crate::group::Group;
use crate::sheet::held::wants_read;
use crate::sheet::lend;

// Row t and column t are the only ones that meet: sound at every size.
fn diagonal(size: usize) -> Vec<u8> {
    let one = |number: usize| match number < 128 {
        true => vec![number as u8],
        false => vec![128 + (number % 128) as u8, (number / 128) as u8],
    };
    let mut bytes = one(size);
    for column in 0..size {
        bytes.push(1);
        bytes.extend(one(column));
    }
    for place in 0..size {
        bytes.extend([one(place), one(place)].concat());
    }
    bytes
}

pub fn sizes(group: &mut Group) {
    for (size, reply) in [
        (1, 0),
        (127, 0),
        (128, 0),
        (130, 0),
        (999, 0),
        (1_000, 0),
        (1_001, 1),
    ] {
        let mut dice = group.dice();
        let call = lend::to_read(&mut dice, &diagonal(size), size, size);
        wants_read(group, &call, reply, &format!("the diagonal of size {size}"));
    }
}

// Of size 110, where 109 full columns have 11,990 entries and the last column may have ten more.
pub fn totals(group: &mut Group) {
    let full = [&[110][..], &[0; 110]].concat();
    let head = [&[110][..], &full.repeat(109)].concat();
    let order: Vec<u8> = (0..110).flat_map(|place| [place, place]).collect();
    let ten = [&[10][..], &[0; 10], &order].concat();
    let eleven = [&[11][..], &[0; 11], &order].concat();
    for (tail, reply, why) in [
        (&[10][..], 9, "12,000, and cut"),
        (&[10, 128, 0], 10, "12,000, before a row of a wrong form"),
        (&[10, 110], 11, "12,000, before row m"),
        (&ten[..11], 9, "12,000, cut before the order"),
        (&ten, 5, "12,000 and an unsound order"),
        (&[&ten[..], &[0]].concat(), 12, "12,000 and a surplus"),
        (&[11], 11, "12,001 before a cut"),
        (&[11, 128, 0], 11, "12,001 before a row of a wrong form"),
        (&[11, 0, 0, 128], 11, "12,001 before a cut among the rows"),
        (&[110], 11, "12,100 before a cut"),
        (&eleven, 11, "12,001 and nothing else but an unsound order"),
        (&[139, 0], 10, "count 11 in two groups, before the total"),
    ] {
        let mut dice = group.dice();
        let sheet = [&head, tail].concat();
        let call = lend::to_read(&mut dice, &sheet, 110, 12_001);
        wants_read(group, &call, reply, why);
    }
}
