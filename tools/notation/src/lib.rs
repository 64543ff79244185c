//! A record as text that people read and write: README.md says the notation.

mod assemble;
mod dump;
mod fields;
mod insn;
mod line;
mod memory;
mod quoted;
mod usual;
mod words;

// The record's model and its questions, shared with the oracle.
#[path = "../../oracle/src/questions.rs"]
pub mod questions;
#[path = "../../oracle/src/record.rs"]
pub mod record;

pub use assemble::assemble;
pub use dump::dump;

#[cfg(test)]
mod tests;

/// What is wrong with a text, and in which line, counted from 1.
#[derive(Clone, Debug, PartialEq, Eq)]
pub struct Error {
    pub line: usize,
    pub what: String,
}
