// The lists that are lent at a call: the six of a register, and the eta list.

#[derive(Clone, PartialEq)]
pub struct Lists {
    pub col_starts: Vec<u16>,
    pub col_rows: Vec<u16>,
    pub row_starts: Vec<u16>,
    pub row_cols: Vec<u16>,
    pub order_rows: Vec<u16>,
    pub order_cols: Vec<u16>,
    pub eta: Vec<u16>,
}

impl Lists {
    // Every place of every list; the lists stay where they lie in memory.
    pub fn reset(&mut self, saved: &Lists) {
        self.col_starts.copy_from_slice(&saved.col_starts);
        self.col_rows.copy_from_slice(&saved.col_rows);
        self.row_starts.copy_from_slice(&saved.row_starts);
        self.row_cols.copy_from_slice(&saved.row_cols);
        self.order_rows.copy_from_slice(&saved.order_rows);
        self.order_cols.copy_from_slice(&saved.order_cols);
        self.eta.copy_from_slice(&saved.eta);
    }

    // Lists of the same lengths with zeros.
    pub fn blank(&self) -> Lists {
        let zeros = |list: &Vec<u16>| vec![0; list.len()];
        Lists {
            col_starts: zeros(&self.col_starts),
            col_rows: zeros(&self.col_rows),
            row_starts: zeros(&self.row_starts),
            row_cols: zeros(&self.row_cols),
            order_rows: zeros(&self.order_rows),
            order_cols: zeros(&self.order_cols),
            eta: zeros(&self.eta),
        }
    }
}
