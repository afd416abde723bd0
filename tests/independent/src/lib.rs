//! The outline's rules in plain Rust, typed in from the outline and sharing
//! nothing with the proved crates: what they are compared with.
#![forbid(unsafe_code)]

pub mod book;
pub mod event;
pub mod journal;
pub mod numbers;
pub mod tables;

pub use book::check_book;
pub use event::run;
pub use journal::{read_journal, Reading};
