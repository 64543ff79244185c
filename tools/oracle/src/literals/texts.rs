//! Every short text over bytes that a literal gives a meaning to, every short escape, every number of characters, and every short end.

use super::{spelling, MARK, MOST};

/// What a literal gives a meaning to, with the first byte of the mark, and others of each sort: digits, letters, bytes that need an escape.
pub const BYTES: &[u8; 16] = b"\"\\Lu{}01dFna'\r\x7f\xe2";

/// What stands around a text: nothing, quotes, or those of a wide string.
const AROUND: [(&[u8], &[u8]); 3] = [(b"", b""), (b"\"", b"\""), (b"L\"", b"\"")];

const DIGITS: &[u8] = b"0123456789abcdefABCDEF";

/// Hands on every text of at most so many of the bytes, with all that stands around it.
pub fn each_short(most: usize, mut each: impl FnMut(&[u8]) -> Result<(), String>) -> Result<(), String> {
    for (before, behind) in AROUND {
        for length in 0..=most {
            each_of(BYTES, length, |text| each(&[before, text, behind].concat()))?;
        }
    }
    Ok(())
}

/// Hands on, in quotes, every one and two bytes, every code of no, one and two bytes, and every code of three hexadecimal digits.
pub fn each_escape(mut each: impl FnMut(&[u8]) -> Result<(), String>) -> Result<(), String> {
    let all: Vec<u8> = (0..=255).collect();
    for length in 0..=2 {
        each_of(&all, length, |text| each(&[b"\"", text, b"\""].concat()))?;
        each_of(&all, length, |code| each(&[b"\"\\u{", code, b"}\""].concat()))?;
    }
    each_of(DIGITS, 3, |code| each(&[b"\"\\u{", code, b"}\""].concat()))
}

/// Hands on texts in quotes of every number of characters up to 400, and of 80 more than a u16 counts, with the mark and without.
pub fn each_length(mut each: impl FnMut(&[u8]) -> Result<(), String>) -> Result<(), String> {
    for length in (0..=400).chain([(1 << 16) + 80]) {
        for (character, mark) in [(b'a', &b""[..]), (b'a', MARK), (1, b""), (1, MARK)] {
            each(&[b"\"", &spelling(character).repeat(length)[..], mark, b"\""].concat())?;
        }
    }
    Ok(())
}

/// Hands on every end of at most four bytes of the mark, a quote, a backslash and a letter behind 79, 80 and 81 characters.
pub fn each_end(mut each: impl FnMut(&[u8]) -> Result<(), String>) -> Result<(), String> {
    for characters in [MOST - 1, MOST, MOST + 1] {
        let begun = [b"\"", &vec![b'a'; characters][..]].concat();
        for length in 0..=4 {
            each_of(b"\xe2\x80\xa6\"\\a", length, |end| each(&[&begun, end].concat()))?;
        }
    }
    Ok(())
}

/// Every text of so many of the bytes.
fn each_of(bytes: &[u8], length: usize, mut each: impl FnMut(&[u8]) -> Result<(), String>) -> Result<(), String> {
    let mut text = vec![bytes[0]; length];
    for n in 0..bytes.len().pow(length as u32) {
        let mut rest = n;
        for place in &mut text {
            *place = bytes[rest % bytes.len()];
            rest /= bytes.len();
        }
        each(&text)?;
    }
    Ok(())
}
