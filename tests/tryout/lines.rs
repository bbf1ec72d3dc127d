// The lines of a text by the paper's grammar: the whole line is split at its spaces, and a number
// is plain where it is written back as it was read.

const LONGEST: usize = 8_000;

pub enum Line {
    Order(usize),
    Col(usize, Vec<usize>),
    Put(usize, Vec<usize>),
}

// Each line with its LF; what stands after the last LF is a line without one.
pub fn split(text: &[u8]) -> impl Iterator<Item = &[u8]> {
    text.split_inclusive(|&byte| byte == b'\n')
}

pub fn read(line: &[u8]) -> Option<Line> {
    let line = line.strip_suffix(b"\n")?;
    if line.len() > LONGEST {
        return None;
    }
    let (word, rest) = std::str::from_utf8(line).ok()?.split_once(' ')?;
    let numbers: Option<Vec<usize>> = rest.split(' ').map(plain).collect();
    match (word, numbers?.as_slice()) {
        ("order", [size]) => Some(Line::Order(*size)),
        ("col", [column, rows @ ..]) => Some(Line::Col(*column, rows.to_vec())),
        ("put", [column, rows @ ..]) => Some(Line::Put(*column, rows.to_vec())),
        _ => None,
    }
}

fn plain(word: &str) -> Option<usize> {
    let number: u16 = word.parse().ok()?;
    (number.to_string() == word).then_some(number as usize)
}
