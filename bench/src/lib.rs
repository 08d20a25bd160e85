//! An independent implementation of the rules in `docs/`, and random inputs to hold the library against it.

#![forbid(unsafe_code)]

pub mod generate;
pub mod header;
pub mod plain;
pub mod random;
pub mod tally;
