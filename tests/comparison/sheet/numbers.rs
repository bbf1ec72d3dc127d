// Numbers in seven-bit groups, by division and by powers. A form is the shortest exactly if it is
// the one that its number would be written in, so that zero groups need no rule of their own.

// The groups of a number in its shortest form, however many they are.
pub fn groups(number: usize) -> Vec<u8> {
    let mut groups = vec![(number % 128) as u8];
    let mut rest = number / 128;
    while rest > 0 {
        groups.push((rest % 128) as u8);
        rest /= 128;
    }
    let last = groups.len() - 1;
    for group in &mut groups[..last] {
        *group += 128;
    }
    groups
}

// All numbers that can be read one after another, where each of them ends, and the reply to him who
// needs one more: 9 or 10.
pub struct Decoded {
    pub numbers: Vec<usize>,
    pub ends: Vec<usize>,
    pub one_more: usize,
}

pub fn decode(bytes: &[u8]) -> Decoded {
    let (mut numbers, mut ends) = (Vec::new(), Vec::new());
    let mut begin = 0;
    loop {
        let three = &bytes[begin..bytes.len().min(begin + 3)];
        match first(three) {
            Ok((number, length)) => {
                numbers.push(number);
                begin += length;
                ends.push(begin);
            }
            Err(one_more) => {
                return Decoded {
                    numbers,
                    ends,
                    one_more,
                }
            }
        }
    }
}

// The number that stands first in up to three bytes, and how many of them it takes.
fn first(three: &[u8]) -> Result<(usize, usize), usize> {
    let Some(last) = three.iter().position(|&group| group < 128) else {
        return Err(if three.len() < 3 { 9 } else { 10 });
    };
    let form = &three[..=last];
    let powers = [1, 128, 128 * 128];
    let number = form
        .iter()
        .zip(powers)
        .map(|(&group, power)| usize::from(group % 128) * power)
        .sum();
    if groups(number) == form {
        Ok((number, form.len()))
    } else {
        Err(10)
    }
}
