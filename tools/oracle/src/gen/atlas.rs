//! Names, strings and mapped addresses.

use super::{LIMIT_T, NUMBERS};
use crate::record::Entry;
use crate::rng::Rng;

pub fn spans(rng: &mut Rng, starts: &[u64], most: usize) -> Vec<(u64, u64)> {
    let n = rng.below(most + 1);
    (0..n)
        .map(|_| {
            let first = match rng.below(4) {
                0 if !starts.is_empty() => rng.pick(starts),
                1 => rng.pick(&NUMBERS),
                2 => rng.pick(&[0, 0xff0, 0x1000, 0x2000, 0x40_0000, u64::MAX]),
                _ => rng.any_width(),
            };
            (first, first.saturating_add(rng.pick(&[0, 1, 0xf, 0x1000, u64::MAX / 2])))
        })
        .collect()
}

pub fn atlas(rng: &mut Rng, starts: &[u64], spans: &[(u64, u64)], most: usize) -> Vec<Entry> {
    let n = rng.below(most + 1);
    let mut at: Vec<u64> = (0..n)
        .map(|_| match rng.below(6) {
            0 | 1 if !starts.is_empty() => rng.pick(starts),
            2 | 3 if !spans.is_empty() => {
                let (first, last) = rng.pick(spans);
                first + (rng.below(0x20) as u64).min(last - first)
            }
            4 => rng.pick(&NUMBERS),
            _ => rng.any_width(),
        })
        .collect();
    at.sort_unstable();
    at.dedup();
    let mut room = LIMIT_T;
    at.into_iter()
        .map(|address| {
            let kind = rng.range(1, 3) as u8;
            let mut text = if kind == 3 { symbol(rng) } else { string(rng) };
            text.truncate(room.max(1));
            room -= text.len().min(room);
            Entry { address, kind, text }
        })
        .scan(LIMIT_T, |left, e| {
            *left = left.checked_sub(e.text.len())?;
            Some(e)
        })
        .collect()
}

fn string(rng: &mut Rng) -> Vec<u8> {
    const ODD: &[u8] = b"\0\t\r\n'\"\\\x01\x02\x0b\x1b\x1f\x7f\x7e\x20\x10";
    let n = match rng.below(12) {
        0 => 0,
        1 => rng.range(78, 82),
        2 => rng.range(80, 255),
        _ => rng.range(1, 12),
    };
    let odd = rng.pick(&[0, 30, 60, 100]);
    (0..n).map(|_| if rng.percent(odd) { rng.pick(ODD) } else { rng.range(0x20, 0x7e) as u8 }).collect()
}

fn symbol(rng: &mut Rng) -> Vec<u8> {
    match rng.below(10) {
        0 => rng.pick(&["}", "} ", "do", "if", "while", ") {"]).into(),
        1 => b"a{b}".to_vec(),
        2 => {
            let n = rng.range(1, 255);
            (0..n).map(|_| rng.range(0x20, 0x7e) as u8).collect()
        }
        3 => b"a\\b\"c'".to_vec(),
        _ => {
            let n = rng.range(1, 14);
            (0..n).map(|_| rng.range(b'a' as usize, b'z' as usize) as u8).collect()
        }
    }
}
