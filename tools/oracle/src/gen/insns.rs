//! Instructions, alone and in the company that the emitter looks for.

use super::{real, World, NUMBERS};
use crate::record::{kind, mnemonic as m, name, register as r, Insn, Operand};
use crate::rng::Rng;

const NAMES: [&str; 16] = [
    "jne",
    "je",
    "jb",
    "sete",
    "cmovb",
    "set",
    "clc",
    "movsb",
    "pushfq",
    "vpaddd",
    "fld",
    "_",
    "0",
    "mov",
    "vgf2p8affineinvqb_01234",
    "abcdefghijklmnopqrstuvwx",
];

const JUMPS: [&str; 17] =
    ["", "jo", "jno", "jb", "jae", "je", "jne", "jbe", "ja", "js", "jns", "jp", "jnp", "jl", "jge", "jle", "jg"];

/// A conditional branch.
pub fn jcc(rng: &mut Rng, world: &World, target: u64) -> Insn {
    let condition = rng.range(1, 16) as u8;
    let text = if rng.percent(95) { JUMPS[condition as usize] } else { rng.pick(&NAMES) };
    let mut insn = Insn { condition, count: 1, name: name(text), ..memory(rng, world) };
    insn.operands[0] = Operand { kind: kind::NEAR, register: 0, number: target };
    insn
}

/// One to a few instructions that mean something to the emitter together.
pub fn recipe(rng: &mut Rng, world: &World, out: &mut Vec<Insn>) {
    if world.bits == 16 && rng.percent(40) {
        return real::recipe(rng, world, out);
    }
    match rng.below(100) {
        0..=11 => {
            out.push(flag_writer(rng, world));
            if rng.percent(25) {
                out.push(any_insn(rng, world));
            }
            out.push(conditional(rng, world));
        }
        12..=23 => {
            for _ in 0..rng.below(4) {
                let to = argument_register(rng, world);
                let how = rng.pick(&[m::MOV, m::LEA, m::XOR, m::POP]);
                out.push(two(rng, world, how, to));
            }
            out.push(call(rng, world));
        }
        24..=31 => {
            for _ in 0..rng.below(4) {
                out.push(one(rng, world, m::PUSH));
            }
            out.push(call(rng, world));
        }
        which => out.push(single(rng, world, which)),
    }
}

/// One instruction, by a number from 32 to 99.
fn single(rng: &mut Rng, world: &World, which: usize) -> Insn {
    match which {
        32..=49 => {
            let how = rng.range(6, 15) as u8;
            two(rng, world, how, 0)
        }
        50..=55 => noise(rng, world),
        56..=60 => constant(rng, world),
        61..=64 => xor_self(rng, world),
        65..=68 => {
            let count = rng.range(0, 5) as u8;
            Insn { count, ..two(rng, world, m::IMUL, 0) }
        }
        69..=72 => {
            let how = rng.pick(&[m::XCHG, m::CMPXCHG]);
            two(rng, world, how, 0)
        }
        73..=77 => {
            let how = rng.pick(&[m::MOVZX, m::MOVSX, m::MOVSXD, m::LEA]);
            two(rng, world, how, 0)
        }
        78..=80 => {
            let how = rng.pick(&[m::JMP, m::CALL]);
            indirect(rng, world, how)
        }
        81..=84 => {
            let how = rng.range(16, 19) as u8;
            one(rng, world, how)
        }
        85..=88 => Insn { mnemonic: rng.range(30, 37) as u8, ..memory(rng, world) },
        _ => any_insn(rng, world),
    }
}

/// A cmp, a test, or another instruction that sets flags.
pub fn flag_writer(rng: &mut Rng, world: &World) -> Insn {
    let how = match rng.below(10) {
        0..=3 => m::CMP,
        4..=6 => m::TEST,
        7 => m::BT,
        8 => rng.pick(&[m::ADD, m::SUB, m::INC, m::DEC, m::IMUL, 18]),
        _ => rng.range(6, 13) as u8,
    };
    let mut insn = two(rng, world, how, 0);
    if rng.percent(30) {
        insn.operands[1] = insn.operands[0];
    }
    insn
}

/// A setcc or a cmovcc.
pub fn conditional(rng: &mut Rng, world: &World) -> Insn {
    let how = rng.pick(&[m::SETCC, m::CMOVCC]);
    Insn { condition: rng.range(1, 16) as u8, ..two(rng, world, how, 0) }
}

pub fn call(rng: &mut Rng, world: &World) -> Insn {
    if rng.percent(25) {
        return indirect(rng, world, m::CALL);
    }
    let mut insn = Insn { mnemonic: m::CALL, count: 1, ..memory(rng, world) };
    insn.operands[0] = Operand { kind: kind::NEAR, register: 0, number: any_number(rng, world) };
    insn
}

/// A call or jump through a register or a slot.
pub fn indirect(rng: &mut Rng, world: &World, how: u8) -> Insn {
    let mut insn = Insn { mnemonic: how, count: 1, ..memory(rng, world) };
    insn.operands[0] = match rng.below(8) {
        0..=2 => Operand { kind: kind::REGISTER, register: some_register(rng, world), number: 0 },
        3..=6 => Operand { kind: kind::MEMORY, ..Operand::default() },
        _ => immediate(rng, world),
    };
    insn
}

/// Instructions that a prologue or an epilogue is made of, and near misses.
fn noise(rng: &mut Rng, world: &World) -> Insn {
    let sp = match world.bits {
        16 => real::stack_pointer(rng),
        _ if rng.percent(50) => r::RSP,
        _ => r::ESP,
    };
    match rng.below(6) {
        0 => one(rng, world, m::PUSH),
        1 => one(rng, world, m::POP),
        2 => {
            let how = rng.pick(&[m::SUB, m::ADD, m::MOV, m::LEA]);
            two(rng, world, how, sp)
        }
        3 => {
            let mut insn = two(rng, world, m::MOV, world.frame);
            insn.operands[1] = Operand { kind: kind::REGISTER, register: sp, number: 0 };
            insn
        }
        _ => Insn { mnemonic: rng.range(41, 45) as u8, ..memory(rng, world) },
    }
}

/// `and x, 0` and `or x, -1`, and near misses.
fn constant(rng: &mut Rng, world: &World) -> Insn {
    let how = rng.pick(&[m::AND, m::OR]);
    let mut insn = two(rng, world, how, 0);
    let number = rng.pick(&[0, u64::MAX, 0xffff_ffff, 0x5_ffff_ffff, 0xff, 1]);
    insn.operands[1] = Operand { kind: rng.range(2, 11) as u8, register: 0, number };
    if rng.percent(50) {
        insn.operands[0] = Operand { kind: kind::MEMORY, ..Operand::default() };
        insn.size = rng.pick(&[4, 4, 8, 2]);
    }
    insn
}

/// `xor x, x`, and no register beside something else, which reads as no register too.
fn xor_self(rng: &mut Rng, world: &World) -> Insn {
    let mut insn = two(rng, world, m::XOR, 0);
    let near_miss = rng.percent(20);
    let register = if near_miss { r::NONE } else { some_register(rng, world) };
    insn.operands[0] = Operand { kind: kind::REGISTER, register, number: 0 };
    insn.operands[1] = Operand { kind: kind::REGISTER, register, number: 7 };
    if near_miss {
        insn.operands[rng.below(2)] = operand(rng, world);
    }
    insn
}

pub fn one(rng: &mut Rng, world: &World, how: u8) -> Insn {
    Insn { count: 1, ..two(rng, world, how, 0) }
}

/// Two operands, the first being the register given, if one is.
pub fn two(rng: &mut Rng, world: &World, how: u8, to: u8) -> Insn {
    let mut insn = memory(rng, world);
    insn.mnemonic = how;
    insn.count = if rng.percent(94) { 2 } else { rng.below(6) as u8 };
    insn.operands[0] = operand(rng, world);
    insn.operands[1] = operand(rng, world);
    if rng.percent(60) {
        insn.operands[0] = Operand { kind: kind::REGISTER, register: some_register(rng, world), number: 0 };
    }
    if to != 0 {
        insn.operands[0] = Operand { kind: kind::REGISTER, register: to, number: 0 };
    }
    if rng.percent(10) || how == m::IMUL {
        insn.operands[2] = operand(rng, world);
    }
    insn
}

/// Any mnemonic with any operands.
pub fn any_insn(rng: &mut Rng, world: &World) -> Insn {
    let mut insn = memory(rng, world);
    insn.mnemonic = rng.range(0, m::LAST as usize) as u8;
    insn.count = rng.below(6) as u8;
    for k in 0..5 {
        insn.operands[k] = operand(rng, world);
    }
    match insn.mnemonic {
        m::OTHER => {
            insn.condition = if rng.percent(30) { rng.range(1, 16) as u8 } else { 0 };
            insn.name = any_name(rng);
        }
        m::SETCC | m::CMOVCC => insn.condition = rng.range(1, 16) as u8,
        _ => {}
    }
    insn
}

/// A listed name, or 1 to 24 letters, digits and underscores.
fn any_name(rng: &mut Rng) -> [u8; 24] {
    const LETTERS: &[u8] = b"abcdefghijklmnopqrstuvwxyz0123456789_";
    if rng.percent(70) {
        return name(rng.pick(&NAMES));
    }
    let mut out = [0; 24];
    let n = rng.range(1, 24);
    out[..n].fill_with(|| rng.pick(LETTERS));
    out
}

/// An instruction with its memory operand chosen, and nothing else.
pub fn memory(rng: &mut Rng, world: &World) -> Insn {
    let mut insn = Insn::default();
    if rng.percent(30) {
        return insn;
    }
    if world.bits == 16 && rng.percent(85) {
        return real::memory(rng, world);
    }
    insn.segment = if rng.percent(80) { r::DS } else { rng.pick(&[r::FS, r::GS, 0, r::FS, r::GS, 112, 80]) };
    let sp = if world.bits == 64 { r::RSP } else { r::ESP };
    insn.base = match rng.below(20) {
        0..=2 => 0,
        3 | 4 => r::RIP,
        5 => r::EIP,
        6..=8 => sp,
        9..=11 => world.frame,
        12 => rng.pick(&[r::RSP, r::ESP, r::RBP, r::EBP]),
        13 => any_register(rng),
        _ => some_register(rng, world),
    };
    if rng.percent(35) {
        insn.index = if rng.percent(90) { some_register(rng, world) } else { any_register(rng) };
    }
    insn.scale = rng.pick(&[1, 1, 2, 4, 8]);
    insn.size = rng.pick(&[0, 1, 2, 4, 4, 8, 8, 16, 32, 3, 10, 64, 0x100, 0x104, u16::MAX]);
    insn.memory = match insn.base != 0 && insn.base == world.frame && rng.percent(15) {
        // Where a frame's shift crosses zero, or 64 bits hold the sum no more.
        true => rng.pick(&[0, 8, 0u64.wrapping_sub(8), 1 << 63, (1 << 63) + 0x10, (1 << 63) - 1, (1 << 63) - 0x10]),
        false => any_number(rng, world),
    };
    insn
}

pub fn operand(rng: &mut Rng, world: &World) -> Operand {
    let mut o = match rng.below(100) {
        0..=41 => Operand { kind: kind::REGISTER, register: some_register(rng, world), number: 0 },
        42..=64 => Operand { kind: kind::MEMORY, ..Operand::default() },
        65..=69 => Operand { kind: kind::NEAR, register: 0, number: any_number(rng, world) },
        70..=97 => immediate(rng, world),
        _ => Operand { kind: kind::OTHER, register: 0, number: any_number(rng, world) },
    };
    // Bytes that no kind of operand reads.
    if rng.percent(4) {
        match o.kind {
            kind::REGISTER => o.number = rng.u64(),
            _ => o.register = any_register(rng),
        }
    }
    o
}

fn immediate(rng: &mut Rng, world: &World) -> Operand {
    if world.bits == 16 {
        return real::immediate(rng, world);
    }
    Operand { kind: rng.range(kind::IMM8 as usize, kind::IMM32TO64 as usize) as u8, register: 0, number: any_number(rng, world) }
}

/// Numbers at which a rule turns, addresses of the record, small ones, and others.
pub fn any_number(rng: &mut Rng, world: &World) -> u64 {
    match rng.below(10) {
        0..=3 => rng.pick(&NUMBERS),
        4 | 5 if !world.known.is_empty() => rng.pick(&world.known),
        6 | 7 => rng.below(0x60) as u64,
        8 => (rng.below(0x2800) as u64).wrapping_neg(),
        _ => rng.any_width(),
    }
}

pub fn argument_register(rng: &mut Rng, world: &World) -> u8 {
    let index = rng.pick(&[1u8, 2, 6, 7, 8, 9]);
    match rng.below(10) {
        0 => r::AX + index,
        1 => r::AL + index,
        2 => r::EAX + index,
        _ if world.bits == 64 => r::RAX + index,
        _ if world.bits == 16 => r::AX + index,
        _ => r::EAX + index,
    }
}

/// A register that code of this width is likely to name.
fn some_register(rng: &mut Rng, world: &World) -> u8 {
    if world.bits == 16 {
        return real::register(rng);
    }
    match rng.below(20) {
        0..=9 if world.bits == 64 => r::RAX + rng.below(16) as u8,
        0..=11 => r::EAX + rng.below(8) as u8,
        12..=14 => r::EAX + rng.below(16) as u8,
        15 | 16 => r::RAX + rng.below(16) as u8,
        17 => argument_register(rng, world),
        _ => any_register(rng),
    }
}

/// Any register that exists, or none.
pub fn any_register(rng: &mut Rng) -> u8 {
    let index = rng.below(16) as u8;
    match rng.below(16) {
        0 => r::NONE,
        1 | 2 => r::AL + index,
        3 | 4 => r::AH + index % 4,
        5 | 6 => r::AX + index,
        7 | 8 => r::EAX + index,
        9 | 10 => r::RAX + index,
        11 => r::EIP + index % 2,
        12 | 13 => 112 + index % 6,
        14 => 128 + index,
        _ => 144 + index,
    }
}
