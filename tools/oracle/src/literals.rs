//! From a literal token back to its string (#103), written a second time from the request's words and those of document 01.

pub mod any;
pub mod damage;
#[cfg(test)]
mod tests;
pub mod texts;

use std::sync::LazyLock;

/// "17 if the token is not of kind 5 or no such literal, asked first"
pub const NO_LITERAL: u8 = 17;

/// "12 if the list for the bytes is short"
pub const NO_ROOM: u8 = 12;

/// The kind of a literal's token.
pub const ADDRESS: u8 = 5;

/// "quotes around at most 80 characters"
pub const MOST: usize = 80;

/// "A longer string has `…` (E2 80 A6) after the 80th."
pub const MARK: &[u8] = b"\xe2\x80\xa6";

/// How many values a call gives: the number of the string's bytes, 1 if it was wide, 1 if it was cut.
pub const VALUES: usize = 3;

/// A call: a token's kind and text, a list for the string's bytes and one for the values. It answers 0 or a number.
pub type Reader = fn(u8, &[u8], &mut [u8], &mut [u64]) -> u8;

/// A string as its literal tells it: of a cut one the first 80 characters.
#[derive(Clone, Debug, PartialEq, Eq)]
pub struct Literal {
    pub bytes: Vec<u8>,
    pub wide: bool,
    pub cut: bool,
}

/// How a string's byte is written: "escaped once: `\0 \t \r \n \' \" \\`, other bytes below 0x20 and 0x7f as `\u{..}` in shortest lower hex".
pub fn spelling(byte: u8) -> Vec<u8> {
    match byte {
        0 => b"\\0".to_vec(),
        b'\t' => b"\\t".to_vec(),
        b'\r' => b"\\r".to_vec(),
        b'\n' => b"\\n".to_vec(),
        b'\'' | b'"' | b'\\' => vec![b'\\', byte],
        0x01..=0x1f | 0x7f => format!("\\u{{{byte:x}}}").into_bytes(),
        _ => vec![byte],
    }
}

/// The literal of a string: "L if wide, then quotes around at most 80 characters".
pub fn literal(wide: bool, string: &[u8]) -> Vec<u8> {
    let spelled = string.iter().take(MOST).flat_map(|byte| spelling(*byte)).collect();
    let before = if wide { &b"L\""[..] } else { b"\"" };
    let mark = if string.len() > MOST { MARK } else { b"" };
    [before.to_vec(), spelled, mark.to_vec(), b"\"".to_vec()].concat()
}

/// The string of a literal, if a listing writes this text for one: "Only spellings that the listing itself writes are accepted".
pub fn string(text: &[u8]) -> Option<Literal> {
    let (wide, quoted) = without(text, |text| text.strip_prefix(b"L"));
    let inside = quoted.strip_prefix(b"\"")?.strip_suffix(b"\"")?;
    let (cut, spelled) = without(inside, |inside| inside.strip_suffix(MARK));
    let bytes = characters(spelled)?;
    let written = bytes.len() == MOST || bytes.len() < MOST && !cut;
    written.then_some(Literal { bytes, wide, cut })
}

/// Whether there is something to take off, and the rest.
fn without(text: &[u8], take: fn(&[u8]) -> Option<&[u8]>) -> (bool, &[u8]) {
    take(text).map_or((false, text), |rest| (true, rest))
}

/// The spelling of each byte that a string may have.
static SPELLINGS: LazyLock<Vec<Vec<u8>>> = LazyLock::new(|| (0..0x80).map(spelling).collect());

/// The bytes that are spelled so, one behind the other. No spelling begins another one, so there is one way at most.
fn characters(mut spelled: &[u8]) -> Option<Vec<u8>> {
    let mut bytes = Vec::new();
    while let Some(first) = spelled.first() {
        let byte = match SPELLINGS.get(usize::from(*first)) {
            Some(spelling) if spelling[..] == [*first] => usize::from(*first),
            _ => SPELLINGS.iter().position(|spelling| spelled.starts_with(spelling))?,
        };
        spelled = &spelled[SPELLINGS[byte].len()..];
        bytes.push(byte as u8);
    }
    Some(bytes)
}

/// One call. With a number the list for the bytes stays as it was and the values are 0; a list of fewer than three values gets the first ones.
pub fn read(kind: u8, text: &[u8], out: &mut [u8], values: &mut [u64]) -> u8 {
    let found = if kind == ADDRESS { string(text) } else { None };
    let (no, answers) = match found {
        None => (NO_LITERAL, [0; VALUES]),
        Some(Literal { bytes, wide, cut }) => match out.get_mut(..bytes.len()) {
            None => (NO_ROOM, [0; VALUES]),
            Some(place) => {
                place.copy_from_slice(&bytes);
                (0, [bytes.len() as u64, u64::from(wide), u64::from(cut)])
            }
        },
    };
    values.iter_mut().zip(answers).for_each(|(value, answer)| *value = answer);
    no
}
