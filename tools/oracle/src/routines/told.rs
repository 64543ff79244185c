//! Which routine a record is, told from its fields alone: another way from the request's words than making one.

use super::Ending;
use crate::record::{Block, Insn, Operand, Record};

/// A routine, ordered as the request orders them: "Fewer blocks come first, then the first block's ending decides, then the second's and third's."
#[derive(Debug, PartialEq, Eq, PartialOrd, Ord)]
pub struct Told {
    pub blocks: usize,
    pub endings: Vec<Ending>,
}

/// Which one a record is, or what is not as the request has it.
pub fn routine(record: &Record) -> Result<Told, String> {
    let endings = endings(record)?;
    Ok(Told { blocks: endings.len(), endings })
}

fn endings(record: &Record) -> Result<Vec<Ending>, String> {
    let Record { bits: 64, convention: 1, indent: 1, blocks, .. } = record else {
        return Err("bits, convention or indent are others".to_string());
    };
    let blank = Record { bits: 64, convention: 1, indent: 1, blocks: blocks.clone(), ..Record::default() };
    if *record != blank || !(1..=3).contains(&blocks.len()) {
        return Err("there is a frame, a shift, an atlas entry or a span, or not one to three blocks".to_string());
    }
    let starts: Vec<u64> = (0..blocks.len() as u64).map(|place| 0x1000 + 0x10 * place).collect();
    if !blocks.iter().map(|block| block.start).eq(starts.iter().copied()) {
        return Err("a block starts elsewhere".to_string());
    }
    blocks.iter().zip(1..).map(|(block, next)| ending(block, &starts, next)).collect()
}

/// One block's. The block behind it stands at place `next`, if there is one.
fn ending(block: &Block, starts: &[u64], next: usize) -> Result<Ending, String> {
    let ([insn], 1) = (&block.insns[..], block.label) else {
        return Err(format!("the block at {:x} has not one instruction, or wants no label", block.start));
    };
    let edges: Vec<(u64, u8)> = block.edges.iter().map(|edge| (edge.to, edge.kind)).collect();
    let behind = starts.get(next).copied();
    let target = starts.iter().position(|start| *start == insn.operands[0].number);
    let found = match (written(insn), &edges[..], target) {
        (Some("ret"), [], _) => Some(Ending::Ret),
        (Some("mov eax,1"), [(to, 3)], _) if behind == Some(*to) => Some(Ending::Fall),
        (Some("jmp"), [(to, 0)], Some(t)) if starts[t] == *to => Some(Ending::Jmp(t)),
        (Some("jne"), [(to, 1), (past, 2)], Some(t)) if starts[t] == *to && behind == Some(*past) => Some(Ending::Jne(t)),
        _ => None,
    };
    match found.filter(|_| insn.address == block.start) {
        Some(ending) => Ok(ending),
        None => Err(format!("the block at {:x} ends in no way that the request has: {insn:x?}, edges {edges:x?}", block.start)),
    }
}

/// What an instruction says, if it has no more in it than that: each field by its number in document 01, every other one 0, scale 1.
fn written(insn: &Insn) -> Option<&'static str> {
    let operand = |kind: u8, register: u8, number: u64| Operand { kind, register, number };
    let near = operand(2, 0, insn.operands[0].number);
    let [none, eax, one] = [operand(0, 0, 0), operand(0, 64, 0), operand(5, 0, 1)];
    let rest = (insn.skip, insn.segment, insn.base, insn.index, insn.scale, insn.size, insn.memory);
    let [first, second, more @ ..] = insn.operands;
    if rest != (0, 0, 0, 0, 1, 0, 0) || more != [none; 3] {
        return None;
    }
    let name: &[u8] = insn.name.split(|byte| *byte == 0).next()?;
    if insn.name[name.len()..].iter().any(|byte| *byte != 0) {
        return None;
    }
    match (insn.mnemonic, insn.condition, insn.count, name) {
        (24, 0, 0, b"") if [first, second] == [none; 2] => Some("ret"),
        (1, 0, 2, b"") if [first, second] == [eax, one] => Some("mov eax,1"),
        (25, 0, 1, b"") if [first, second] == [near, none] => Some("jmp"),
        (0, 6, 1, b"jne") if [first, second] == [near, none] => Some("jne"),
        _ => None,
    }
}
