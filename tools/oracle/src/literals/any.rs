//! Strings of every length around the cut, of every byte that a string may have.

use super::MOST;
use crate::rng::Rng;

/// Bytes that are escaped, and those beside them.
const ODD: &[u8] = b"\0\t\r\n'\"\\\x01\x0b\x0f\x10\x1b\x1f\x7f\x7e u{}L0";

/// Of 0 to 90 bytes below 0x80, many of them near 80.
pub fn string(rng: &mut Rng) -> Vec<u8> {
    let length = match rng.below(10) {
        0..=2 => rng.range(0, 4),
        3..=5 => rng.range(0, 90),
        6 => MOST,
        7 => rng.range(MOST - 2, MOST + 2),
        8 => rng.range(MOST + 1, 90),
        _ => rng.range(5, 20),
    };
    let odd = rng.pick(&[0, 10, 50, 100]);
    let any = rng.percent(20);
    let byte = |rng: &mut Rng| match (any, rng.percent(odd)) {
        (true, _) => rng.below(0x80) as u8,
        (_, true) => rng.pick(ODD),
        _ => rng.range(0x20, 0x7e) as u8,
    };
    (0..length).map(|_| byte(rng)).collect()
}
