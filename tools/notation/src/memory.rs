//! The memory operand: `dword ptr fs:[rax+rcx*4+8]`, `[rel 402000]`, `[0x402000]`.

use crate::line::{Line, Number};
use crate::record::{register as r, Insn};
use crate::usual::digits;
use crate::words;

/// A record has room for one memory operand an instruction.
#[derive(Clone, Copy, Debug, PartialEq, Eq)]
pub struct Memory {
    pub segment: u8,
    pub base: u8,
    pub index: u8,
    pub scale: u8,
    pub size: u16,
    pub address: u64,
}

impl Memory {
    pub fn of(insn: &Insn) -> Memory {
        let Insn { segment, base, index, scale, size, memory, .. } = *insn;
        Memory { segment, base, index, scale, size, address: memory }
    }

    pub fn put(self, insn: &mut Insn) {
        let Memory { segment, base, index, scale, size, address } = self;
        *insn = Insn { segment, base, index, scale, size, memory: address, ..*insn };
    }

    /// The width of the address registers in bytes; 8 if they say nothing.
    fn width(&self) -> u32 {
        let register = if self.base != 0 { self.base } else { self.index };
        match words::register_width(register) {
            2 => 2,
            4 => 4,
            _ => 8,
        }
    }

    fn mask(&self) -> u64 {
        u64::MAX >> (64 - 8 * self.width())
    }
}

/// The operand that begins here, of so many bytes as the word before says; only lea may leave that out.
pub fn read(line: &mut Line, mnemonic: &str) -> Result<Memory, String> {
    let size = match line.peek_word().and_then(words::size) {
        Some(size) => {
            line.word("a size")?;
            if !line.takes_word("ptr") {
                return Err(format!("`ptr` is wanted, not {}", line.found()));
            }
            size
        }
        None if mnemonic == "lea" => 0,
        None => return Err("how many bytes? Write `dword ptr [..]`, or `void ptr [..]` if that is not known".to_string()),
    };
    let mut memory = Memory { segment: 0, base: 0, index: 0, scale: 1, size, address: 0 };
    if !line.is_next('[') {
        memory.segment = line.register(255)? as u8;
        line.mark(':')?;
    }
    line.mark('[')?;
    address(line, &mut memory)?;
    line.mark(']')?;
    Ok(memory)
}

/// What stands in the brackets.
fn address(line: &mut Line, memory: &mut Memory) -> Result<(), String> {
    if line.takes_word("rel") {
        memory.base = r::RIP;
        memory.address = line.address()?;
        return Ok(());
    }
    if line.peek_word().is_some_and(|w| words::register(w).is_none()) {
        memory.address = line.address()?;
        if line.is_next(']') {
            return Ok(());
        }
        return Err("an address with registers is written `[REGISTER+NUMBER]`".to_string());
    }
    let mut displacement = None;
    register(line, memory)?;
    while !line.is_next(']') {
        let minus = line.is_next('-');
        if !line.takes('+') && !minus {
            return Err(format!("`+`, `-` or `]` is wanted, not {}", line.found()));
        }
        if !minus && line.peek_word().is_some_and(|w| words::register(w).is_some()) {
            register(line, memory)?;
            continue;
        }
        if displacement.replace(line.number()?).is_some() {
            return Err("two numbers in one address".to_string());
        }
    }
    memory.address = stored(memory, displacement.unwrap_or(Number { negative: false, size: 0 }))?;
    Ok(())
}

/// A base, or an index: the second register, or one with a scale.
fn register(line: &mut Line, memory: &mut Memory) -> Result<(), String> {
    let number = line.register(255)? as u8;
    if matches!(number, r::RIP | r::EIP) {
        return Err("an address relative to rip is written `[rel ADDRESS]`, with the address itself".to_string());
    }
    let scale = if line.takes('*') { Some(line.decimal(255)? as u8) } else { None };
    if scale.is_some_and(|s| ![1, 2, 4, 8].contains(&s)) {
        return Err("a scale is 1, 2, 4 or 8".to_string());
    }
    if scale.is_none() && memory.base == 0 {
        memory.base = number;
    } else if memory.index == 0 {
        memory.index = number;
        memory.scale = scale.unwrap_or(1);
    } else {
        return Err("an address has one base and one index".to_string());
    }
    Ok(())
}

/// A negative displacement has no bits above the width of the address registers, as a decoder gives it.
fn stored(memory: &Memory, displacement: Number) -> Result<u64, String> {
    if !displacement.negative {
        return Ok(displacement.size);
    }
    if displacement.size > memory.mask() / 2 + 1 {
        return Err(format!("-{:#x} is too far for registers of {} bytes", displacement.size, memory.width()));
    }
    Ok(displacement.value() & memory.mask())
}

/// The spelling that comes nearest: a segment, base or index that no register is, stays out.
pub fn spell(memory: &Memory, mnemonic: &str) -> String {
    let size = match (memory.size, words::size_word(memory.size)) {
        (0, _) if mnemonic == "lea" => String::new(),
        (_, word) => format!("{} ptr ", word.unwrap_or("void")),
    };
    let named = |n: u8| words::register_name(n).filter(|_| n != 0);
    let segment = named(memory.segment).map_or(String::new(), |s| s + ":");
    let (base, index) = (named(memory.base), named(memory.index));
    let inside = match (base, index) {
        _ if matches!(memory.base, r::RIP | r::EIP) => format!("rel {}", digits(memory.address)),
        (None, None) => digits(memory.address),
        (Some(base), None) => base + &displacement(memory),
        (None, Some(index)) => format!("{index}*{}{}", memory.scale, displacement(memory)),
        (Some(base), Some(index)) if memory.scale == 1 => format!("{base}+{index}{}", displacement(memory)),
        (Some(base), Some(index)) => format!("{base}+{index}*{}{}", memory.scale, displacement(memory)),
    };
    format!("{size}{segment}[{inside}]")
}

/// Below 0 if it is at most 0x8000 below.
fn displacement(memory: &Memory) -> String {
    let below = memory.address.wrapping_neg() & memory.mask();
    match memory.address {
        0 => String::new(),
        n if n <= memory.mask() && below <= 0x8000 => format!("-{}", digits(below)),
        n => format!("+{}", digits(n)),
    }
}
