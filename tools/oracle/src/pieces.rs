//! Parts of lines, made by the Rust, or the amended one where a request departs: operands, addresses and conditions.

use crate::amended;
use crate::departures;
use crate::emitter;
use crate::model::Token;
use crate::record::Record;

/// Tokens as document 01's lists hold them.
#[derive(Clone, Debug, Default, PartialEq, Eq)]
pub struct Tokens {
    pub text: Vec<u8>,
    pub ends: Vec<u32>,
    pub kinds: Vec<u8>,
}

impl std::fmt::Display for Tokens {
    fn fmt(&self, f: &mut std::fmt::Formatter) -> std::fmt::Result {
        write!(f, "`{}` ends {:?} kinds {:?}", String::from_utf8_lossy(&self.text), self.ends, self.kinds)
    }
}

impl Tokens {
    /// The tokens with names, registers and numbers left out: what was printed, whatever of.
    pub fn form(&self) -> Vec<u8> {
        let mut form = Vec::new();
        let mut start = 0;
        for (end, kind) in self.ends.iter().zip(&self.kinds) {
            form.push(*kind);
            let text = &self.text[start..*end as usize];
            start = *end as usize;
            match kind {
                3 | 6 | 0 => form.extend(text),
                1 | 4 => form.extend(text.iter().take_while(|c| **c != b'_').take(if text.contains(&b'_') { 5 } else { 0 })),
                _ => form.push(text.first().is_some_and(|c| *c == b'-') as u8),
            }
        }
        form
    }

    fn new(tokens: &[Token]) -> Tokens {
        let mut out = Tokens::default();
        for token in tokens {
            out.text.extend(token.t.as_bytes());
            out.ends.push(out.text.len() as u32);
            out.kinds.push(token.k as u8);
        }
        out
    }
}

/// A piece that an instruction prints in the block whose first instruction is `first`, by the number that the port has for it.
pub struct Piece {
    pub first: u16,
    pub at: u16,
    pub what: u8,
    pub tokens: Tokens,
    /// Whether a request of document 02 leaves it to the amended Rust.
    pub amended: bool,
}

/// The port's numbers: operands from 0 on, the memory operand read and as an address, condition c as 16 + c.
const READ: u8 = 5;
const ADDRESS: u8 = 6;
const CONDITIONS: u8 = 16;

/// Every piece of every instruction: all operand slots, beyond the count too, the memory operand both ways, and each of the
/// sixteen conditions as tested there.
pub fn all(record: &Record) -> Vec<Piece> {
    let mut out = Vec::new();
    let firsts = firsts(record);
    let mut add = |what: u8, tokens: Vec<Tokens>, departs: &[bool]| {
        out.extend(tokens.into_iter().zip(&firsts).enumerate().map(|(at, (tokens, &first))| Piece {
            first,
            at: at as u16,
            what,
            tokens,
            amended: departs[at],
        }));
    };
    let whole = vec![departures::whole(record); firsts.len()];
    let slots = operands(record);
    for k in 0..5 {
        let departs: Vec<bool> = record.insns().map(|i| departures::operand(record, &i.operands[k])).collect();
        add(k as u8, slots.iter().map(|s| s[k].clone()).collect(), &departs);
    }
    add(READ, memory(record, true), &whole);
    add(ADDRESS, memory(record, false), &whole);
    for c in 1..=16 {
        add(CONDITIONS + c, conditions(record, c), &departing(record, c));
    }
    out
}

/// For every instruction the first one of its block.
fn firsts(record: &Record) -> Vec<u16> {
    let mut out: Vec<u16> = Vec::new();
    for block in &record.blocks {
        let first = out.len() as u16;
        out.extend(block.insns.iter().map(|_| first));
    }
    out
}

/// Every operand slot of every instruction, beyond the count too.
pub fn operands(record: &Record) -> Vec<[Tokens; 5]> {
    let both = emitter::operands(record).into_iter().zip(amended::operands(record));
    both.zip(record.insns())
        .map(|((rust, amended), i)| {
            std::array::from_fn(|k| Tokens::new(if departures::operand(record, &i.operands[k]) { &amended[k] } else { &rust[k] }))
        })
        .collect()
}

/// Every instruction's memory operand, read, or as the address that `lea` prints.
pub fn memory(record: &Record, read: bool) -> Vec<Tokens> {
    let tokens = if departures::whole(record) { amended::memory(record, read) } else { emitter::memory(record, read) };
    tokens.iter().map(|t| Tokens::new(t)).collect()
}

/// For each instruction whether a condition that it tests departs.
fn departing(record: &Record, condition: u8) -> Vec<bool> {
    let blocks = record.blocks.iter().map(|b| &b.insns);
    blocks.flat_map(|i| (0..i.len()).map(|n| departures::condition(record, &i[..n], condition))).collect()
}

/// What a condition (1 to 16) prints when each instruction tests it.
pub fn conditions(record: &Record, condition: u8) -> Vec<Tokens> {
    let both = emitter::conditions(record, condition).into_iter().zip(amended::conditions(record, condition));
    both.zip(departing(record, condition))
        .map(|((rust, amended), departs)| Tokens::new(if departs { &amended } else { &rust }))
        .collect()
}
