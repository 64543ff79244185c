//! The kind that an immediate has if its spelling says none: the one that an assembler would choose.

use crate::line::Number;
use crate::record::kind;

const IMM16: u8 = 4;
const IMM64: u8 = 6;
const IMM8TO16: u8 = 7;
const IMM8TO32: u8 = 8;
const IMM8TO64: u8 = 9;

/// What the kind of an immediate depends on.
pub struct Setting<'a> {
    pub bits: u16,
    pub mnemonic: &'a str,
    /// The bytes that the first operand has.
    pub width: u16,
}

impl Setting<'_> {
    /// The kinds to try, the first that the number fits being taken.
    fn kinds(&self) -> &'static [u8] {
        match (self.mnemonic, self.width) {
            ("shl" | "shr" | "sar" | "rol" | "ror" | "bt", _) => &[kind::IMM8],
            ("ret" | "retf", _) => &[IMM16],
            ("push", _) => extended(self.bits / 8),
            ("mov", 8) => &[kind::IMM32TO64, IMM64],
            ("test", 8) => &[kind::IMM32TO64],
            ("mov" | "test", 4) => &[kind::IMM32],
            ("mov" | "test", 2) => &[IMM16],
            ("xor" | "and" | "or" | "add" | "sub" | "imul" | "cmp" | "adc" | "sbb", width) => extended(width),
            _ => &[kind::IMM8],
        }
    }

    /// The kind, and the number as a record holds it; none if the number fits no usual kind.
    pub fn kind(&self, number: Number) -> Option<(u8, u64)> {
        self.kinds().iter().find_map(|k| fitting(*k, number).map(|n| (*k, n)))
    }
}

/// Kinds where a small number is spelled in one byte.
fn extended(width: u16) -> &'static [u8] {
    match width {
        2 => &[IMM8TO16, IMM16],
        4 => &[IMM8TO32, kind::IMM32],
        8 => &[IMM8TO64, kind::IMM32TO64],
        _ => &[kind::IMM8],
    }
}

/// The number as a record holds it, if a decoder could give it this kind.
fn fitting(kind: u8, number: Number) -> Option<u64> {
    let value = number.value();
    let fits = match kind {
        IMM8TO16 | IMM8TO32 | IMM8TO64 => i8::try_from(value as i64).is_ok(),
        kind::IMM32TO64 => i32::try_from(value as i64).is_ok(),
        IMM64 => true,
        _ if number.negative => return stored(kind, number),
        _ => value <= mask(kind),
    };
    fits.then_some(value)
}

/// The number as a record holds it: a negative one of kinds 8, 16 and 32 has no bits above its width.
pub fn stored(kind: u8, number: Number) -> Option<u64> {
    match kind {
        kind::IMM8 | IMM16 | kind::IMM32 if number.negative => {
            (number.size <= mask(kind) / 2 + 1).then_some(number.value() & mask(kind))
        }
        _ => Some(number.value()),
    }
}

fn mask(kind: u8) -> u64 {
    match kind {
        kind::IMM8 => 0xff,
        IMM16 => 0xffff,
        _ => 0xffff_ffff,
    }
}

/// The spelling of an immediate's number.
pub fn spell(kind: u8, number: u64) -> String {
    let signed = number as i64;
    if kind >= IMM64 && (-0x1000..0).contains(&signed) {
        return format!("-{}", digits(number.wrapping_neg()));
    }
    digits(number)
}

/// A number as a listing has it: decimal below 10, else hexadecimal.
pub fn digits(number: u64) -> String {
    if number < 10 {
        number.to_string()
    } else {
        format!("{number:#x}")
    }
}
