//! Rows of any lines that a file can have: tokens of any bytes, numbers at which the digits turn.

use super::{Row, Token};
use crate::rng::Rng;

/// Bytes that a file of rows gives a meaning to, and the backslash, to which it gives none.
const SPECIAL: &[u8] = b"\",\r\n\\";

pub fn rows(rng: &mut Rng) -> Vec<Row> {
    let lines = match rng.below(100) {
        0..=4 => 0,
        5..=94 => rng.range(1, 6),
        _ => rng.range(7, 40),
    };
    (0..lines).map(|_| row(rng)).collect()
}

/// A file's rows for readers that others wrote.
pub fn many(seed: u64) -> Vec<Row> {
    let mut rng = Rng::new(seed);
    (0..40).flat_map(|_| rows(&mut rng)).collect()
}

fn row(rng: &mut Rng) -> Row {
    let tokens = if rng.percent(95) { rng.range(1, 5) } else { rng.range(6, 30) };
    Row { address: address(rng), indent: indent(rng), place: place(rng), tokens: (0..tokens).map(|_| token(rng)).collect() }
}

pub fn address(rng: &mut Rng) -> Option<u64> {
    match rng.below(10) {
        0..=2 => None,
        3 => Some(rng.pick(&[0, 1, 0xf, 0x10, 0x9999_9999_9999_9999, 0xabcd_ef00_0000_0000, u64::MAX])),
        _ => Some(rng.any_width()),
    }
}

pub fn indent(rng: &mut Rng) -> u8 {
    match rng.percent(50) {
        true => rng.pick(&[0, 1, 9, 10, 99, 100, 199, 200, 249, 250, 253, 254]),
        false => rng.below(255) as u8,
    }
}

pub fn place(rng: &mut Rng) -> u16 {
    match rng.percent(50) {
        true => rng.pick(&[0, 1, 9, 10, 99, 100, 999, 1000, 9999, 10_000, 65_529, 65_530, 65_534, 65_535]),
        false => rng.any_width() as u16,
    }
}

fn token(rng: &mut Rng) -> Token {
    let bytes = if rng.percent(97) { rng.range(1, 8) } else { rng.range(9, 300) };
    let byte: fn(&mut Rng) -> u8 = match rng.below(4) {
        0 => |rng| rng.below(256) as u8,
        1 => |rng| rng.pick(SPECIAL),
        2 => |rng| rng.pick(b"\"a"),
        _ => |rng| rng.range(0x20, 0x7e) as u8,
    };
    Token { kind: rng.below(8) as u8, text: (0..bytes).map(|_| byte(rng)).collect() }
}
