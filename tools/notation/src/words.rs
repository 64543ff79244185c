//! The words of the notation, each beside its number in a record.

use std::collections::HashMap;
use std::sync::LazyLock;

use crate::record::{mnemonic as m, name, NAME};

/// Words by number.
pub type Words = &'static [&'static str];

pub const CONVENTIONS: Words = &["microsoft", "systemv"];
pub const EDGES: Words = &["uncond", "true", "false", "fall", "case"];
/// No entry has kind 0, and no text has the empty word.
pub const ENTRIES: Words = &["", "string", "wide", "name"];
pub const CONDITIONS: Words = &["none", "o", "no", "b", "ae", "e", "ne", "be", "a", "s", "ns", "p", "np", "l", "ge", "le", "g"];
pub const KINDS: Words =
    &["register", "memory", "near", "imm8", "imm16", "imm32", "imm64", "imm8to16", "imm8to32", "imm8to64", "imm32to64", "other"];
/// Number 0 has a name instead; setcc and cmovcc are spelled with their condition.
const MNEMONICS: Words = &[
    "", "mov", "movzx", "movsx", "movsxd", "lea", "xor", "and", "or", "add", "sub", "shl", "shr", "sar", "rol", "ror", "inc",
    "dec", "neg", "not", "imul", "push", "pop", "call", "ret", "jmp", "", "", "cmpxchg", "xchg", "rdtsc", "cpuid", "cdq", "cqo",
    "cdqe", "cwde", "ud2", "hlt", "cmp", "test", "bt", "leave", "nop", "int3", "endbr64", "endbr32",
];
/// What stands before `ptr`, and how many bytes it says.
const SIZES: [(&str, u16); 10] = [
    ("void", 0),
    ("byte", 1),
    ("word", 2),
    ("dword", 4),
    ("fword", 6),
    ("qword", 8),
    ("tbyte", 10),
    ("xmmword", 16),
    ("ymmword", 32),
    ("zmmword", 64),
];
/// Other spellings of conditions, as debuggers have them.
const ALIASES: [(&str, u8); 14] = [
    ("c", 3),
    ("nae", 3),
    ("nc", 4),
    ("nb", 4),
    ("z", 5),
    ("nz", 6),
    ("na", 7),
    ("nbe", 8),
    ("pe", 11),
    ("po", 12),
    ("nge", 13),
    ("nl", 14),
    ("ng", 15),
    ("nle", 16),
];

/// The number of a word, if it is one of these.
pub fn find(words: Words, word: &str) -> Option<u8> {
    words.iter().position(|w| *w == word && !w.is_empty()).map(|n| n as u8)
}

/// The word, or `#` and the number where there is none.
pub fn spell(words: Words, number: u16) -> String {
    match words.get(usize::from(number)) {
        Some(word) if !word.is_empty() => word.to_string(),
        _ => format!("#{number}"),
    }
}

pub fn size(word: &str) -> Option<u16> {
    SIZES.iter().find(|(w, _)| *w == word).map(|(_, n)| *n)
}

pub fn size_word(size: u16) -> Option<&'static str> {
    SIZES.iter().find(|(_, n)| *n == size).map(|(w, _)| *w)
}

static REGISTERS: LazyLock<HashMap<String, u8>> = LazyLock::new(|| {
    let mut out: HashMap<String, u8> = (0..=255).filter_map(|n| Some((register_name(n)?, n))).collect();
    // Most debuggers write r8b to r15b.
    out.extend((8..16).map(|i| (format!("r{i}b"), 16 + i)));
    out
});

pub fn register(word: &str) -> Option<u8> {
    REGISTERS.get(word).copied()
}

/// The decoder's spelling; none for a number that no register has.
pub fn register_name(number: u8) -> Option<String> {
    const WIDE: [&str; 8] = ["ax", "cx", "dx", "bx", "sp", "bp", "si", "di"];
    let i = usize::from(number % 16);
    Some(match number / 16 {
        0 if i == 0 => "none".to_string(),
        1 if i < 4 => format!("{}l", &WIDE[i][..1]),
        1 if i < 8 => format!("{}l", WIDE[i]),
        1 => format!("r{i}l"),
        2 if i < 4 => format!("{}h", &WIDE[i][..1]),
        3 if i < 8 => WIDE[i].to_string(),
        3 => format!("r{i}w"),
        4 if i < 8 => format!("e{}", WIDE[i]),
        4 => format!("r{i}d"),
        5 if i < 8 => format!("r{}", WIDE[i]),
        5 => format!("r{i}"),
        6 => ["eip", "rip"].get(i)?.to_string(),
        7 => ["es", "cs", "ss", "ds", "fs", "gs"].get(i)?.to_string(),
        8 => format!("xmm{i}"),
        9 => format!("ymm{i}"),
        _ => return None,
    })
}

/// The bytes that a general register holds; 0 for others.
pub fn register_width(number: u8) -> u16 {
    match number / 16 {
        1 | 2 => 1,
        3 => 2,
        4 => 4,
        5 => 8,
        _ => 0,
    }
}

/// What a mnemonic's spelling says: number, condition and name.
pub struct Spelled {
    pub mnemonic: u8,
    pub condition: u8,
    pub name: [u8; NAME],
}

/// `?` is the spelling of a mnemonic that has none.
pub fn mnemonic(word: &str) -> Result<Spelled, String> {
    let numbered = |mnemonic: u8, condition: u8| Spelled { mnemonic, condition, name: [0; NAME] };
    if word == "?" {
        return Ok(numbered(m::OTHER, 0));
    }
    if let Some(n) = find(MNEMONICS, word) {
        return Ok(numbered(n, 0));
    }
    for (front, number) in [("set", m::SETCC), ("cmov", m::CMOVCC)] {
        if let Some(c) = word.strip_prefix(front).and_then(condition) {
            return Ok(numbered(number, c));
        }
    }
    if word.len() > NAME || !word.bytes().all(is_name_byte) {
        return Err(format!("`{word}` is no mnemonic: a name has 1 to 24 of a-z, 0-9 and _"));
    }
    let tested = word.strip_prefix('j').or_else(|| word.strip_prefix("loop")).and_then(condition);
    Ok(Spelled { mnemonic: m::OTHER, condition: tested.unwrap_or(0), name: name(word) })
}

/// The spelling that comes nearest to an instruction's mnemonic.
pub fn mnemonic_word(number: u8, condition: u8, name: &[u8; NAME]) -> String {
    let tested = CONDITIONS.get(usize::from(condition)).filter(|_| condition > 0);
    let length = name.iter().position(|b| *b == 0).unwrap_or(NAME);
    match (number, tested) {
        (m::OTHER, _) if length > 0 && name[..length].iter().all(|b| is_name_byte(*b)) => {
            String::from_utf8_lossy(&name[..length]).into_owned()
        }
        (m::SETCC, Some(c)) => format!("set{c}"),
        (m::CMOVCC, Some(c)) => format!("cmov{c}"),
        _ => MNEMONICS.get(usize::from(number)).filter(|w| !w.is_empty()).unwrap_or(&"?").to_string(),
    }
}

/// A bare number behind one of these is a branch target.
pub fn is_branch(word: &str) -> bool {
    word == "call" || word.starts_with('j') || word.starts_with("loop")
}

fn condition(word: &str) -> Option<u8> {
    let alias = ALIASES.iter().find(|(w, _)| *w == word).map(|(_, n)| *n);
    find(CONDITIONS, word).filter(|n| *n > 0).or(alias)
}

fn is_name_byte(b: u8) -> bool {
    matches!(b, b'a'..=b'z' | b'0'..=b'9' | b'_')
}
