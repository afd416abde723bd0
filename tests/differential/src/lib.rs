//! Compares engines with the independent implementation on made-up cases.

pub mod books;
pub mod cases;
pub mod events;
pub mod interleavings;
pub mod journals;
pub mod lent;
pub mod mutants;
pub mod options;
pub mod random;
pub mod subjects;
pub mod sweep;
pub mod tally;
