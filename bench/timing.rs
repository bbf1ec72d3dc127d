// The measurement: what the library does, the plain program does next, on the same input. Every
// outcome of the one must be the other's to the last place, or the bench is at an end.

use crate::draws::Draw;
use crate::library;
use crate::lists::Lists;
use crate::plain::Plain;
use crate::replies::{DONE, MAX_SIZE, MAX_TOTAL};
use std::hint::black_box;
use std::time::Instant;

// The least times so far, in nanoseconds: what else the machine does can only add to a time.
pub struct Least {
    pub library: f64,
    pub plain: f64,
}

pub const UNTIMED: Least = Least {
    library: f64::INFINITY,
    plain: f64::INFINITY,
};

impl Least {
    pub fn ratio(&self) -> f64 {
        self.library / self.plain
    }
}

fn timed<T>(least: &mut f64, work: impl FnOnce() -> T) -> T {
    let begin = Instant::now();
    let result = black_box(work());
    *least = least.min(begin.elapsed().as_nanos() as f64);
    result
}

// What is lent to the library and to the plain program, each its own.
pub struct Desk {
    plain: Plain,
    blank: Lists,
    ours: Lists,
    theirs: Lists,
    our_bytes: Vec<u8>,
    their_bytes: Vec<u8>,
}

impl Desk {
    pub fn new(plain: Plain, lists: &Lists) -> Desk {
        // More than any sheet has.
        let bytes = vec![0xA5; 3 * MAX_TOTAL];
        Desk {
            plain,
            blank: lists.blank(),
            ours: lists.blank(),
            theirs: lists.blank(),
            our_bytes: bytes.clone(),
            their_bytes: bytes,
        }
    }

    pub fn replace(&mut self, lists: &Lists, draw: &Draw, least: &mut Least) -> Result<(), String> {
        let (column, new_rows) = black_box((draw.column, &draw.new_rows));
        let (ours, theirs) = (&mut self.ours, &mut self.theirs);
        ours.reset(lists);
        let library = timed(&mut least.library, || {
            library::replace(MAX_SIZE, ours, column, new_rows)
        });
        theirs.reset(lists);
        let plain = timed(&mut least.plain, || {
            self.plain.replace(MAX_SIZE, theirs, column, new_rows)
        });
        if library != draw.reply || plain != draw.reply || ours != theirs {
            return Err(differ("replace", library, plain) + &format!(": {column}, {new_rows:?}"));
        }
        Ok(())
    }

    pub fn check(&mut self, lists: &Lists, least: &mut Least) -> Result<(), String> {
        let lists = black_box(lists);
        let library = timed(&mut least.library, || library::check(MAX_SIZE, lists));
        let plain = timed(&mut least.plain, || self.plain.check(MAX_SIZE, lists));
        if library != DONE || plain != DONE {
            return Err(differ("check", library, plain));
        }
        Ok(())
    }

    // Replies how many bytes the sheet has.
    pub fn write(&mut self, lists: &Lists, least: &mut Least) -> Result<usize, String> {
        let lists = black_box(lists);
        let (ours, theirs) = (&mut self.our_bytes, &mut self.their_bytes);
        let library = timed(&mut least.library, || {
            library::write_sheet(MAX_SIZE, lists, ours)
        });
        let plain = timed(&mut least.plain, || {
            self.plain.write_sheet(MAX_SIZE, lists, theirs)
        });
        if library.0 != DONE || plain != library || ours != theirs {
            return Err(differ("write", library, plain));
        }
        Ok(library.1)
    }

    // Reads the sheet that was written last, of so many bytes.
    pub fn read(&mut self, count: usize, least: &mut Least) -> Result<(), String> {
        let bytes = black_box(&self.our_bytes[..count]);
        let (ours, theirs) = (&mut self.ours, &mut self.theirs);
        ours.reset(&self.blank);
        let library = timed(&mut least.library, || library::read_sheet(bytes, ours));
        theirs.reset(&self.blank);
        let plain = timed(&mut least.plain, || self.plain.read_sheet(bytes, theirs));
        if library.0 != DONE || plain != library || ours != theirs {
            return Err(differ("read", library, plain));
        }
        Ok(())
    }
}

fn differ<T: std::fmt::Debug>(call: &str, library: T, plain: T) -> String {
    format!("{call}: the library gave {library:?}, the plain program {plain:?}, or other lists")
}
