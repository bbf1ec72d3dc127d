// One call of the replacement and one outcome, as plain data, and how they are told in full so
// that a difference can be made again from what is printed.

use crate::told::{first_number, first_place, told, told_after, told_spilled, Named, SPILLED};

pub const SIZE_LIMIT: usize = 1_000;
pub const TOTAL_LIMIT: usize = 12_000;

pub const SINGULAR: usize = 100;
pub const PERMUTED: usize = 101;
pub const ELIMINATION: usize = 102;

#[derive(Clone, PartialEq)]
pub struct Lists {
    pub col_starts: Vec<u16>,
    pub col_rows: Vec<u16>,
    pub row_starts: Vec<u16>,
    pub row_cols: Vec<u16>,
    pub order_rows: Vec<u16>,
    pub order_cols: Vec<u16>,
    pub eta: Vec<u16>,
}

#[derive(Clone)]
pub struct Call {
    pub size: usize,
    pub column: usize,
    pub new_rows: Vec<u16>,
    pub lists: Lists,
}

// `spilled`: something was written that was not lent for writing.
#[derive(Clone, PartialEq)]
pub struct Outcome {
    pub reply: usize,
    pub bump: usize,
    pub eta_count: usize,
    pub lists: Lists,
    pub spilled: bool,
}

impl Lists {
    pub fn named(&self) -> [Named<'_, u16>; 7] {
        [
            ("col_starts", &self.col_starts),
            ("col_rows", &self.col_rows),
            ("row_starts", &self.row_starts),
            ("row_cols", &self.row_cols),
            ("order_rows", &self.order_rows),
            ("order_cols", &self.order_cols),
            ("eta", &self.eta),
        ]
    }

    // The lists of the register itself: a sheet has to do with no eta list.
    pub fn six(&self) -> [Named<'_, u16>; 6] {
        let [a, b, c, d, e, f, _] = self.named();
        [a, b, c, d, e, f]
    }

    pub fn each(&mut self) -> [&mut Vec<u16>; 7] {
        [
            &mut self.col_starts,
            &mut self.col_rows,
            &mut self.row_starts,
            &mut self.row_cols,
            &mut self.order_rows,
            &mut self.order_cols,
            &mut self.eta,
        ]
    }
}

impl Call {
    pub fn told(&self) -> String {
        let mut text = format!("  size {}\n  column {}\n", self.size, self.column);
        text += &format!("  new rows {:?}\n", self.new_rows);
        text + &told(&self.lists.named())
    }
}

impl Outcome {
    pub fn told(&self, before: &Lists) -> String {
        let mut text = format!("  reply {}", reply_name(self.reply));
        text += &format!(", bump {}, eta count {}", self.bump, self.eta_count);
        text += told_spilled(self.spilled);
        text + &told_after(&self.lists.named(), &before.named())
    }

    // The first thing in which this outcome is not the wanted one.
    pub fn difference(&self, wanted: &Outcome) -> String {
        let numbers = [
            ("reply", self.reply, wanted.reply),
            ("bump", self.bump, wanted.bump),
            ("eta count", self.eta_count, wanted.eta_count),
        ];
        first_number(&numbers)
            .or_else(|| first_place(&self.lists.named(), &wanted.lists.named()))
            .unwrap_or(SPILLED.to_string())
    }
}

pub fn reply_name(reply: usize) -> String {
    match reply {
        SINGULAR => "SINGULAR".to_string(),
        PERMUTED => "PERMUTED".to_string(),
        ELIMINATION => "ELIMINATION".to_string(),
        number => number.to_string(),
    }
}
