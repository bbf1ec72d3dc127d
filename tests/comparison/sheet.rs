// The tests of the sheet: the writer and the reader are each compared with a codec of the second
// program's own.

pub mod by_hand;
pub mod bytes;
pub mod damaged;
pub mod full;
pub mod long;
pub mod misfits;
pub mod shapes;
pub mod short;
pub mod totals;
pub mod trips;

mod call;
mod desk;
mod held;
mod layout;
mod lend;
mod numbers;
mod second;
mod unsound;
