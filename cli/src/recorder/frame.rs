//! The frame register, its shift, and which instructions only keep house.

use std::collections::BTreeSet;

use super::model::{mnemonic as m, register as r, Block, Flow, Insn};

/// The instructions among which the stack pointer is copied.
const FIRST: usize = 8;

/// The frame register or 0, and the shift if there is one.
pub fn frame(bits: u16, blocks: &[Block]) -> (u8, Option<i32>) {
    let Some(insns) = blocks.first().map(|b| &b.insns) else { return (0, None) };
    let copies = |i: &Insn| i.mnemonic == m::MOV && i.register(1).is_some_and(r::is_stack_pointer);
    let Some(at) = insns.iter().take(FIRST).position(copies) else { return (0, None) };
    match insns[at].register(0) {
        Some(register @ (r::RBP | r::EBP)) => (register, None),
        Some(register) if matches!(register >> 4, 4 | 5) => (register, moved(bits, &insns[at + 1..])),
        _ => (0, None),
    }
}

/// How far pushes and a `sub` move the stack pointer down, if that is a fixed number.
fn moved(bits: u16, insns: &[Insn]) -> Option<i32> {
    let is_sub = |i: &&Insn| i.mnemonic == m::SUB && i.register(0).is_some_and(r::is_stack_pointer);
    let mut sum = 0i32;
    for (at, insn) in insns.iter().enumerate() {
        match (insn.mnemonic, insn.register(0)) {
            (m::PUSH, _) => sum = sum.checked_add(i32::from(bits / 8))?,
            _ if is_sub(&insn) => return sum.checked_add(i32::try_from(insn.immediate(1)?).ok()?),
            (_, Some(sp)) if r::is_stack_pointer(sp) => return None,
            // A call that probes the stack is followed by a `sub` of a register.
            _ if insn.flow() != Flow::Next => return insns[at..].iter().all(|i| !is_sub(&i)).then_some(sum),
            _ => {}
        }
    }
    Some(sum)
}

/// Instructions that do nothing, as compilers put them to fill space; nop is known to the listing.
pub fn is_padding(insn: &Insn) -> bool {
    let Some(register) = insn.register(0) else { return false };
    match insn.mnemonic {
        m::MOV => insn.register(1) == Some(register),
        m::LEA => insn.is_memory(1) && insn.base == register && insn.index == 0 && insn.memory == 0 && insn.segment == 0,
        _ => false,
    }
}

/// Marks padding, and saves of registers in the prologue with their reloads.
pub fn mark(bits: u16, frame: u8, blocks: &mut [Block]) {
    for insn in blocks.iter_mut().flat_map(|b| &mut b.insns) {
        // With 64 bits `mov eax, eax` clears the upper half.
        let clears = bits == 64 && insn.register(0).is_some_and(|r| r >> 4 == 4);
        insn.skip = is_padding(insn) && !clears;
    }
    let Some(first) = blocks.first_mut() else { return };
    let saved = mark_saves(frame, first);
    blocks.iter_mut().for_each(|b| mark_reloads(frame, &saved, b));
}

/// Registers that a callee saves, by class and number.
fn is_saved_register(register: u8) -> bool {
    match register >> 4 {
        4 | 5 => matches!(register & 15, 3 | 5 | 6 | 7 | 12..=15),
        8 => register & 15 >= 6,
        _ => false,
    }
}

fn is_move(insn: &Insn) -> bool {
    insn.mnemonic == m::MOV || matches!(insn.name(), b"movaps" | b"movups" | b"movapd" | b"movdqa" | b"movdqu")
}

/// A slot by the stack pointer, the frame register or what stands for it.
fn is_slot(frame: u8, insn: &Insn) -> bool {
    insn.index == 0
        && insn.segment == 0
        && (r::is_stack_pointer(insn.base) || insn.base != 0 && [frame, r::R11].contains(&insn.base))
}

/// Marks stores of registers that still hold what the caller left there.
fn mark_saves(frame: u8, block: &mut Block) -> BTreeSet<u8> {
    let (mut saved, mut written) = (BTreeSet::new(), BTreeSet::new());
    for insn in &mut block.insns {
        if insn.flow() != Flow::Next {
            break;
        }
        let stored = insn.register(1).filter(|r| is_saved_register(*r) && !written.contains(&(r & 15, r >> 4 == 8)));
        match (stored, insn.register(0)) {
            (Some(register), None) if is_move(insn) && insn.is_memory(0) && is_slot(frame, insn) => {
                insn.skip = true;
                saved.insert(register);
            }
            (_, Some(register)) if insn.mnemonic != m::PUSH => {
                written.insert((register & 15, register >> 4 == 8));
            }
            _ => {}
        }
    }
    saved
}

/// Marks loads of saved registers among what stands before a return or a jump out.
fn mark_reloads(frame: u8, saved: &BTreeSet<u8>, block: &mut Block) {
    let leaves = block.edges.is_empty() && block.insns.last().is_some_and(|i| matches!(i.flow(), Flow::Stop | Flow::Jump(_)));
    if !leaves || saved.is_empty() {
        return;
    }
    for insn in block.insns.iter_mut().rev().skip(1) {
        let register = insn.register(0).unwrap_or(0);
        let reload = is_move(insn) && insn.is_memory(1) && is_slot(frame, insn) && saved.contains(&register);
        if reload {
            insn.skip = true;
        } else if !is_epilogue(insn, register) {
            break;
        }
    }
}

/// What may stand between reloads.
fn is_epilogue(insn: &Insn, register: u8) -> bool {
    let result = matches!(register, r::EAX | r::RAX);
    match insn.mnemonic {
        m::POP | m::LEAVE | m::NOP => true,
        m::ADD | m::MOV | m::LEA if r::is_stack_pointer(register) => true,
        m::LEA => register == r::R11,
        m::MOV | m::MOVZX | m::XOR => result,
        _ => false,
    }
}
