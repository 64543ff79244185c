//! An instruction's line, behind its address: `mov eax, dword ptr [rsp+8] #skip`.

use crate::fields;
use crate::line::{Line, Number};
use crate::memory::{self, Memory};
use crate::record::{kind, Insn, Operand};
use crate::usual::{self, Setting};
use crate::words::{self, KINDS};

/// An operand as spelled; a bare number's kind depends on the first operand.
enum Spelled {
    Operand(Operand),
    Memory(Memory),
    Number(Number),
}

pub fn read(line: &mut Line, address: u64, bits: u16) -> Result<Insn, String> {
    let word = line.word("a mnemonic")?;
    let words::Spelled { mnemonic, condition, name } = words::mnemonic(&word)?;
    let mut insn = Insn { address, mnemonic, condition, name, ..Insn::default() };
    let spelled = operands(line, &word)?;
    if spelled.len() > insn.operands.len() {
        return Err(format!("{} operands, where five are the most", spelled.len()));
    }
    insn.count = spelled.len() as u8;
    put_memory(&spelled, &mut insn)?;
    let width = spelled.first().map_or(0, width);
    let setting = Setting { bits, mnemonic: &word, width };
    for (slot, spelled) in insn.operands.iter_mut().zip(&spelled) {
        *slot = operand(spelled, &setting)?;
    }
    fields::read(line, &mut insn)?;
    Ok(insn)
}

fn operands(line: &mut Line, mnemonic: &str) -> Result<Vec<Spelled>, String> {
    let mut out = Vec::new();
    while !line.is_done() {
        if !out.is_empty() {
            line.mark(',')?;
        }
        out.push(one(line, mnemonic)?);
    }
    Ok(out)
}

fn one(line: &mut Line, mnemonic: &str) -> Result<Spelled, String> {
    if line.is_next('-') && !words::is_branch(mnemonic) {
        return Ok(Spelled::Number(line.number()?));
    }
    if line.is_next('[') || line.is_segment() || line.peek_word().and_then(words::size).is_some() {
        return Ok(Spelled::Memory(memory::read(line, mnemonic)?));
    }
    let Some(word) = line.peek_word().map(str::to_string) else {
        return Err(format!("an operand is wanted, not {}", line.found()));
    };
    let plain = |kind: u8, register: u8, number: u64| Ok(Spelled::Operand(Operand { kind, register, number }));
    if let Some(register) = words::register(&word) {
        line.word("a register")?;
        return plain(kind::REGISTER, register, 0);
    }
    match words::find(KINDS, &word) {
        Some(kind::NEAR) => {
            line.word("near")?;
            plain(kind::NEAR, 0, line.address()?)
        }
        Some(kind @ kind::IMM8..=kind::IMM32TO64) => {
            line.word("a kind")?;
            let number = line.number()?;
            let stored = usual::stored(kind, number).ok_or_else(|| format!("-{:#x} does not fit {word}", number.size))?;
            plain(kind, 0, stored)
        }
        _ if line.takes_word("?") => plain(kind::OTHER, 0, 0),
        _ if words::is_branch(mnemonic) => plain(kind::NEAR, 0, line.address()?),
        _ if word.starts_with(|c: char| c.is_ascii_digit()) => Ok(Spelled::Number(line.number()?)),
        _ => Err(format!("`{word}` is no operand")),
    }
}

/// All memory operands of an instruction are one.
fn put_memory(spelled: &[Spelled], insn: &mut Insn) -> Result<(), String> {
    let mut found = spelled.iter().filter_map(|s| match s {
        Spelled::Memory(memory) => Some(*memory),
        _ => None,
    });
    let Some(memory) = found.next() else { return Ok(()) };
    if found.any(|other| other != memory) {
        return Err("two memory operands that differ: a record has room for one".to_string());
    }
    memory.put(insn);
    Ok(())
}

fn width(first: &Spelled) -> u16 {
    match first {
        Spelled::Operand(o) if o.kind == kind::REGISTER => words::register_width(o.register),
        Spelled::Memory(memory) => memory.size,
        _ => 0,
    }
}

fn operand(spelled: &Spelled, setting: &Setting) -> Result<Operand, String> {
    match spelled {
        Spelled::Operand(o) => Ok(*o),
        Spelled::Memory(_) => Ok(Operand { kind: kind::MEMORY, register: 0, number: 0 }),
        Spelled::Number(number) => {
            let (kind, number) = setting.kind(*number).ok_or_else(|| {
                let sign = if number.negative { "-" } else { "" };
                format!("{sign}{:#x} fits no usual immediate here: write its kind, as in `imm32 {sign}{0:#x}`", number.size)
            })?;
            Ok(Operand { kind, register: 0, number })
        }
    }
}

/// The spelling, and the fields that it does not say. A reader of the text gets the same instruction back.
pub fn spell(insn: &Insn, bits: u16) -> String {
    let word = words::mnemonic_word(insn.mnemonic, insn.condition, &insn.name);
    let count = usize::from(insn.count).min(insn.operands.len());
    let operands: Vec<String> = insn.operands[..count].iter().map(|o| spell_operand(o, insn, &word, bits)).collect();
    let text = format!("{word} {}", operands.join(", ")).trim_end().to_string();
    let said = Line::new(&text).and_then(|mut line| read(&mut line, insn.address, bits));
    match said {
        Ok(said) => text + &fields::spell(&said, insn),
        // What cannot be said in words is said in fields alone.
        Err(_) => "?".to_string() + &fields::spell(&Insn { address: insn.address, ..Insn::default() }, insn),
    }
}

fn spell_operand(o: &Operand, insn: &Insn, mnemonic: &str, bits: u16) -> String {
    match o.kind {
        kind::REGISTER => words::register_name(o.register).unwrap_or("none".to_string()),
        kind::MEMORY => memory::spell(&Memory::of(insn), mnemonic),
        kind::NEAR if words::is_branch(mnemonic) => format!("{:x}", o.number),
        kind::NEAR => format!("near {:x}", o.number),
        kind::IMM8..=kind::IMM32TO64 => spell_immediate(o, insn, mnemonic, bits),
        _ => "?".to_string(),
    }
}

/// With its kind, if that is not the usual one.
fn spell_immediate(o: &Operand, insn: &Insn, mnemonic: &str, bits: u16) -> String {
    let number = usual::spell(o.kind, o.number);
    let first = &insn.operands[0];
    let width = match first.kind {
        kind::REGISTER => words::register_width(first.register),
        kind::MEMORY => insn.size,
        _ => 0,
    };
    let negative = number.starts_with('-');
    let size = if negative { o.number.wrapping_neg() } else { o.number };
    let usual = Setting { bits, mnemonic, width }.kind(Number { negative, size });
    if usual == Some((o.kind, o.number)) && !words::is_branch(mnemonic) {
        return number;
    }
    format!("{} {number}", words::spell(KINDS, o.kind.into()))
}
