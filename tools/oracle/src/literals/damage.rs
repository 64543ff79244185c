//! Texts that are a literal no longer, or another one: a change to a character or to what stands around them, or to any byte.

use super::{spelling, Literal, MARK, MOST};
use crate::rng::Rng;

/// A literal in the making: what stands before the characters, each of them as it is spelled, the mark, and what stands behind.
struct Parts {
    before: Vec<u8>,
    characters: Vec<Vec<u8>>,
    mark: Vec<u8>,
    behind: Vec<u8>,
}

type ToParts = fn(&mut Rng, &mut Parts);
type ToBytes = fn(&mut Rng, &mut Vec<u8>);

/// After any of these but the last three no listing writes the text.
const TO_PARTS: [(&str, ToParts); 28] = [
    ("code of a byte with its own escape", |rng, parts| spell(rng, parts, &["\\u{0}", "\\u{9}", "\\u{a}", "\\u{d}"])),
    ("code of a quote or backslash", |rng, parts| spell(rng, parts, &["\\u{22}", "\\u{27}", "\\u{5c}"])),
    ("leading zero", |rng, parts| spell(rng, parts, &["\\u{0d}", "\\u{01}", "\\u{01b}", "\\u{07f}", "\\u{00}", "\\u{0000001f}"])),
    ("upper-case digit", |rng, parts| spell(rng, parts, &["\\u{7F}", "\\u{1B}", "\\u{B}", "\\u{1F}", "\\u{F}"])),
    ("code of a byte that prints as itself", |rng, parts| printing(rng, parts)),
    ("code of 0x80 or more", |rng, parts| {
        spell(rng, parts, &["\\u{80}", "\\u{ff}", "\\u{101}", "\\u{e9}", "\\u{2026}", "\\u{100000001}", "\\u{10000000000000001}"])
    }),
    ("no code", |rng, parts| {
        spell(rng, parts, &["\\u{}", "\\u{+1}", "\\u{-1}", "\\u{ 1}", "\\u{1 }", "\\u{g}", "\\u{0x1}", "\\u{1_f}"])
    }),
    ("no braces", |rng, parts| spell(rng, parts, &["\\u1", "\\u1}", "\\u(1)", "\\u0001", "\\u {1}"])),
    ("escape cut off", |rng, parts| cut_escape(rng, parts)),
    ("another escape", |rng, parts| other_escape(rng, parts)),
    ("byte without its escape", |rng, parts| raw(rng, parts)),
    ("quote without its escape", |rng, parts| spell(rng, parts, &["\"", "\"\""])),
    ("byte of 0x80 or more", |rng, parts| high(rng, parts)),
    ("mark before the end", |rng, parts| put(rng, parts, MARK)),
    ("81 characters", |_, parts| lengthen(parts, MOST + 1, b"")),
    ("many characters", |rng, parts| lengthen(parts, rng.pick(&[82, 90, 160, 256, 336]), b"")),
    ("79 characters and the mark", |_, parts| lengthen(parts, MOST - 1, MARK)),
    ("81 characters and the mark", |_, parts| lengthen(parts, MOST + 1, MARK)),
    ("another number and the mark", |rng, parts| lengthen(parts, rng.pick(&[0, 1, 16, 78, 82, 160, 256, 336]), MARK)),
    ("mark's bytes cut", |rng, parts| cut_mark(rng, parts)),
    ("another mark", |rng, parts| other_mark(rng, parts)),
    ("quote left out", |rng, parts| no_quote(rng, parts)),
    ("other quotes", |rng, parts| other_quotes(rng, parts)),
    ("bytes behind the last quote", |rng, parts| {
        parts.behind.extend(rng.pick(&[&b" "[..], b"\"", b"\0", b";", b"L", b"\r\n", b"\\"]))
    }),
    ("not L before the quote", |rng, parts| {
        parts.before = rng.pick(&[&b"l\""[..], b"LL\"", b" \"", b"L \"", b"u\"", b"\"L\"", b"\\\"", b"L\\\""]).to_vec()
    }),
    ("L put on or taken off", |_, parts| turn_wide(parts)),
    ("mark put on or taken off", |_, parts| turn_mark(parts)),
    ("characters exchanged", |rng, parts| rng.shuffle(&mut parts.characters)),
];

const TO_BYTES: [(&str, ToBytes); 6] = [
    ("byte changed", |rng, text| change(rng, text)),
    ("stray byte", |rng, text| text.insert(rng.below(text.len() + 1), any_byte(rng))),
    ("byte left out", |rng, text| leave_out(rng, text)),
    ("cut off", |rng, text| text.truncate(rng.below(text.len()))),
    ("bytes exchanged", |rng, text| exchange(rng, text)),
    ("part twice", |rng, text| part_twice(rng, text)),
];

pub const KINDS: usize = TO_PARTS.len() + TO_BYTES.len();

/// Kinds after which the text may be a literal, but for that of a text cut off.
pub const HARMLESS: std::ops::Range<usize> = TO_PARTS.len() - 3..KINDS;

/// What a kind of damage is called.
pub fn name(kind: usize) -> &'static str {
    TO_PARTS.get(kind).map_or_else(|| TO_BYTES[kind - TO_PARTS.len()].0, |(name, _)| name)
}

/// The literal with one kind of damage at a random place.
pub fn damaged(rng: &mut Rng, literal: &Literal, kind: usize) -> Vec<u8> {
    let mut parts = Parts {
        before: if literal.wide { b"L\"".to_vec() } else { b"\"".to_vec() },
        characters: literal.bytes.iter().map(|byte| spelling(*byte)).collect(),
        mark: if literal.cut { MARK.to_vec() } else { vec![] },
        behind: b"\"".to_vec(),
    };
    match TO_PARTS.get(kind) {
        Some((_, damage)) => {
            damage(rng, &mut parts);
            join(&parts)
        }
        None => {
            let mut text = join(&parts);
            TO_BYTES[kind - TO_PARTS.len()].1(rng, &mut text);
            text
        }
    }
}

fn join(parts: &Parts) -> Vec<u8> {
    [&parts.before, &parts.characters.concat(), &parts.mark, &parts.behind].into_iter().flatten().copied().collect()
}

/// This in the place of a character, so that there are as many as before; if there is none, it becomes the first.
fn put(rng: &mut Rng, parts: &mut Parts, spelled: &[u8]) {
    let at = rng.below(parts.characters.len());
    match parts.characters.get_mut(at) {
        Some(character) => *character = spelled.to_vec(),
        None => parts.characters.push(spelled.to_vec()),
    }
}

fn spell(rng: &mut Rng, parts: &mut Parts, spellings: &[&str]) {
    let spelled = rng.pick(spellings);
    put(rng, parts, spelled.as_bytes());
}

fn printing(rng: &mut Rng, parts: &mut Parts) {
    let byte = rng.range(0x20, 0x7e) as u8;
    put(rng, parts, format!("\\u{{{byte:x}}}").as_bytes());
}

/// In the place of the last character, so that nothing behind it can complete it.
fn cut_escape(rng: &mut Rng, parts: &mut Parts) {
    parts.characters.pop();
    parts.characters.push(rng.pick(&[&b"\\"[..], b"\\u", b"\\u{", b"\\u{1", b"\\u{1f"]).to_vec());
}

/// A backslash before a byte that makes no escape with it, whatever follows.
fn other_escape(rng: &mut Rng, parts: &mut Parts) {
    let byte = loop {
        let byte = rng.below(256) as u8;
        if !b"0trn'\"\\u".contains(&byte) {
            break byte;
        }
    };
    put(rng, parts, &[b'\\', byte]);
}

/// A byte as it is where it has an escape.
fn raw(rng: &mut Rng, parts: &mut Parts) {
    let byte = match rng.below(0x22) as u8 {
        0x20 => 0x7f,
        0x21 => b'\'',
        byte => byte,
    };
    put(rng, parts, &[byte]);
}

fn high(rng: &mut Rng, parts: &mut Parts) {
    let byte = rng.range(0x80, 0xff) as u8;
    put(rng, parts, &[byte]);
}

/// So many characters, the ones there are over and over, and this mark.
fn lengthen(parts: &mut Parts, length: usize, mark: &[u8]) {
    if parts.characters.is_empty() {
        parts.characters.push(b"a".to_vec());
    }
    parts.characters = parts.characters.iter().cycle().take(length).cloned().collect();
    parts.mark = mark.to_vec();
}

fn cut_mark(rng: &mut Rng, parts: &mut Parts) {
    lengthen(parts, MOST, MARK);
    let some = rng.range(1, 6);
    parts.mark = (0..3).filter(|bit| some >> bit & 1 == 1).map(|bit| MARK[bit]).collect();
}

fn other_mark(rng: &mut Rng, parts: &mut Parts) {
    let marks: [&[u8]; 8] = [
        b"...",
        b"\xe2\x80\xa6\xe2\x80\xa6",
        b"\xe2\x80\xa5",
        b"\xa6\x80\xe2",
        b"\xe2\x80\xa6.",
        b" \xe2\x80\xa6",
        b"\\u{2026}",
        b"\x85",
    ];
    lengthen(parts, MOST, rng.pick(&marks));
}

fn no_quote(rng: &mut Rng, parts: &mut Parts) {
    let which = rng.below(3);
    if which != 0 {
        parts.before.pop();
    }
    if which != 1 {
        parts.behind.clear();
    }
}

/// Quotes of another sort, or doubled as a file of rows has them.
fn other_quotes(rng: &mut Rng, parts: &mut Parts) {
    let (before, behind) =
        rng.pick(&[(&b"'"[..], &b"'"[..]), (b"\"\"\"", b"\"\"\""), (b"\"\"", b"\"\""), (b"`", b"`"), (b"\"", b"'")]);
    parts.before.pop();
    parts.before.extend(before);
    parts.behind = behind.to_vec();
}

fn turn_wide(parts: &mut Parts) {
    match parts.before[0] {
        b'L' => drop(parts.before.remove(0)),
        _ => parts.before.insert(0, b'L'),
    }
}

/// Of 80 characters both are literals.
fn turn_mark(parts: &mut Parts) {
    match parts.mark.is_empty() {
        true => parts.mark.extend(MARK),
        false => parts.mark.clear(),
    }
}

fn any_byte(rng: &mut Rng) -> u8 {
    match rng.percent(60) {
        true => rng.pick(b"\"\\Lu{}0123456789abcdeftrn'\r\n\0\xe2\x80\xa6"),
        false => rng.below(256) as u8,
    }
}

fn change(rng: &mut Rng, text: &mut [u8]) {
    let at = rng.below(text.len());
    text[at] = any_byte(rng);
}

fn leave_out(rng: &mut Rng, text: &mut Vec<u8>) {
    text.remove(rng.below(text.len()));
}

/// Two neighbours.
fn exchange(rng: &mut Rng, text: &mut [u8]) {
    let at = rng.below(text.len() - 1);
    text.swap(at, at + 1);
}

fn part_twice(rng: &mut Rng, text: &mut Vec<u8>) {
    let from = rng.below(text.len());
    let to = rng.range(from, text.len().min(from + 10));
    let part = text[from..to].to_vec();
    text.splice(from..from, part);
}
