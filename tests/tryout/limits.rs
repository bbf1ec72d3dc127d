// The limits themselves, each met exactly, by one less and by one more.

pub mod lines;
pub mod reading;
pub mod sizes;
pub mod starts;
pub mod totals;
