// The plain program: the contract of include/scrollbobbin.h in safe Rust, for speed. It goes the
// way of Schork and Gondzio, by what the column reaches, and keeps its scratch from call to call.

mod checks;
mod exchange;
mod listing;
mod places;
mod reader;
mod search;
mod shift;
mod verdict;
mod writer;

use crate::lists::Lists;
use crate::replies::{bare, Reply, DONE, ELIMINATION, PERMUTED, SINGULAR};
use exchange::Exchange;
use places::Places;
use reader::Reader;
use search::Search;
use verdict::Verdict;
use writer::Writer;

// Tables over rows, columns and places have this length, a power of two, so that a masked number is
// always within.
const ROOM: usize = 1_024;
const MASK: usize = ROOM - 1;

pub struct Plain {
    places: Places,
    search: Search,
    exchange: Exchange,
    writer: Writer,
    reader: Reader,
}

impl Plain {
    pub fn new() -> Plain {
        Plain {
            places: Places::new(),
            search: Search::new(),
            exchange: Exchange::default(),
            writer: Writer::new(),
            reader: Reader::new(),
        }
    }

    #[inline(never)]
    pub fn check(&mut self, size: usize, lists: &Lists) -> usize {
        self.places.check(size, lists)
    }

    #[inline(never)]
    pub fn replace(&mut self, size: usize, lists: &mut Lists, column: usize, new: &[u16]) -> Reply {
        let refusal = checks::call(&mut self.places, size, lists, column, new);
        if refusal != DONE {
            return bare(refusal);
        }
        let place = self.places.col(column as u16);
        match verdict::judge(&mut self.search, &self.places, lists, place, new) {
            Verdict::Singular => bare(SINGULAR),
            Verdict::Permuted => {
                shift::permute(&mut self.search, lists);
                self.exchange.column(size, lists, column, new, None);
                bare(PERMUTED)
            }
            Verdict::Elimination => {
                let eta_count = verdict::eta_rows(&mut self.search, &self.places, size, lists);
                let cleared = Some(lists.order_rows[place]);
                self.exchange.column(size, lists, column, new, cleared);
                shift::to_last(size, lists, place);
                Reply {
                    number: ELIMINATION,
                    bump: self.search.last - place + 1,
                    eta_count,
                }
            }
        }
    }

    #[inline(never)]
    pub fn write_sheet(&mut self, size: usize, lists: &Lists, bytes: &mut [u8]) -> (usize, usize) {
        match self.places.check(size, lists) {
            DONE => self.writer.write(size, lists, bytes),
            refusal => (refusal, 0),
        }
    }

    #[inline(never)]
    pub fn read_sheet(&mut self, bytes: &[u8], lists: &mut Lists) -> (usize, usize) {
        self.reader.read(&mut self.places, bytes, lists)
    }
}
