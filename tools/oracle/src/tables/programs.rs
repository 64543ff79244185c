//! What the program `keyer` prints, and inputs for it.

use super::{any, entries, listed, Entry, Names, NO_NAME};
use crate::listing;
use crate::rng::Rng;
use crate::rows::{self, damage, NOT_ROWS};

/// What the program reads at most.
const MOST_INPUT: usize = 65_536;

/// The table of an input, or `no` and the number.
pub fn keyer(input: &[u8]) -> Vec<u8> {
    match answer(input) {
        Ok(entries) => entries.iter().flat_map(|entry| line(entry).into_bytes()).collect(),
        Err(no) => listing::refusal(no),
    }
}

/// "over 65,536 bytes or without both LF `no 16` before all else, then 19, then 16 for the rows"
fn answer(input: &[u8]) -> Result<Vec<Entry>, u8> {
    let parts: Vec<&[u8]> = input.splitn(3, |byte| *byte == b'\n').collect();
    match parts[..] {
        [call, register, file] if input.len() <= MOST_INPUT => {
            if call.is_empty() || register.is_empty() {
                return Err(NO_NAME);
            }
            Ok(entries(&rows::rows(file).ok_or(NOT_ROWS)?, Names { call, register }))
        }
        _ => Err(NOT_ROWS),
    }
}

/// "address in sixteen upper hex digits, a space and upper hex pairs, unspaced, or a dash, a line each"; "an empty literal prints no pairs"
fn line(entry: &Entry) -> String {
    let pairs = |bytes: &Vec<u8>| bytes.iter().map(|byte| format!("{byte:02X}")).collect();
    format!("{:016X} {}\n", entry.address, entry.bytes.as_ref().map_or("-".to_string(), pairs))
}

/// A generated input: mostly one with a table, else one that is refused for its names, its rows or its line ends.
pub fn input(seed: u64) -> Result<Vec<u8>, String> {
    let mut rng = Rng::new(seed);
    let any::Case { lines, call, register } = if seed % 3 == 0 { listed::case(&mut rng)? } else { any::case(&mut rng) };
    let kind = rng.below(damage::KINDS);
    let file = match !lines.is_empty() && rng.percent(15) {
        true => damage::damaged(&mut rng, &lines, kind),
        false => rows::file(&lines),
    };
    let input = [&call[..], b"\n", &register, b"\n", &file].concat();
    Ok(match rng.below(20) {
        0 => [b"\n", &register[..], b"\n", &file].concat(),
        1 => [&call[..], b"\n\n", &file].concat(),
        2 => [&call[..], b"\r\n", &register, b"\r\n", &file].concat(),
        3 => input[..rng.below(input.len() + 1)].to_vec(),
        4 => input[..(call.len() + register.len() + 2).min(input.len()) - rng.below(2)].to_vec(),
        _ => input,
    })
}
