//! What the program `routine` prints, and every routine's files as the programs print them.

use std::fs;
use std::path::Path;

use super::{bytes, NO_ROUTINE};
use crate::listing;
use crate::rows::programs::to_csv;

/// The record of the routine whose number the input says in decimal, with a line feed behind it or not; or the refusal.
pub fn routine(input: &[u8]) -> Vec<u8> {
    let digits = input.strip_suffix(b"\n").unwrap_or(input);
    match (0..bytes().len()).find(|k| k.to_string().as_bytes() == digits) {
        Some(k) => bytes()[k].clone(),
        None => listing::refusal(NO_ROUTINE),
    }
}

/// Of each routine the record, its listing, the listing's rows and the listing again, under its number.
pub fn keep(folder: &str) -> Result<bool, String> {
    for (k, record) in bytes().iter().enumerate() {
        let listed = listing::program(record)?;
        for (kind, bytes) in [("rec", record), ("listing", &listed), ("csv", &to_csv(record)?), ("back", &listed)] {
            let file = Path::new(folder).join(format!("{k:03}.{kind}"));
            fs::write(&file, bytes).map_err(|e| format!("{}: {e}", file.display()))?;
        }
    }
    Ok(true)
}
