//! The four engines and the work they are timed on.

pub mod engines;
pub mod portable;
pub mod rows;
pub mod work;
