//! The independent version: document 01's four jobs, written straight from its sentences as an oracle.

#![forbid(unsafe_code)]

mod check;
mod evaluate;
pub mod laws;
pub mod listed;
mod print;
pub mod records;
pub mod tables;
pub mod tuned;
pub mod wrong;

#[cfg(test)]
mod tests;

pub use check::{check, Answer};
pub use evaluate::{evaluate, Evaluated};
pub use print::print;
pub use records::record;
