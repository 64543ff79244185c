//! What the programs `to_columns` and `from_columns` print.

use super::{by_bodies, by_columns, first_no, Order};
use crate::listing;

/// What a program reads at most. More than 65,536 bytes are no record, so the rest decides nothing.
const MOST_INPUT: usize = 65_537;

pub fn to_columns(input: &[u8]) -> Vec<u8> {
    printed(input, by_columns)
}

pub fn from_columns(input: &[u8]) -> Vec<u8> {
    printed(input, by_bodies)
}

/// The record in the other order, or `no` and the number.
fn printed(input: &[u8], order: Order) -> Vec<u8> {
    let record = &input[..input.len().min(MOST_INPUT)];
    match first_no(record, usize::MAX) {
        0 => order(record),
        no => listing::refusal(no),
    }
}
