//! Code of 16 bits, as a decoder gives a real-mode driver, and near misses.

use super::insns::{any_number, any_register, call, one, two};
use super::World;
use crate::record::{kind, mnemonic as m, name, register as r, Insn, Operand};
use crate::rng::Rng;

/// What an address of 16 bits adds up: one register, or a pair.
const ALONE: [u8; 4] = [r::BX, r::BP, r::SI, r::DI];
const PAIRS: [(u8, u8); 4] = [(r::BX, r::SI), (r::BX, r::DI), (r::BP, r::SI), (r::BP, r::DI)];

/// Displacements at which the reading as 16 bits turns.
const TURNS: [u64; 12] = [0, 1, 9, 10, 0x7ffe, 0x7fff, 0x8000, 0x8001, 0xfff6, 0xffff, 0x1_0000, 0xffff_ffff_ffff_8000];

/// The frame register: mostly bp.
pub fn frame(rng: &mut Rng) -> u8 {
    match rng.below(20) {
        0..=4 => 0,
        5..=12 => r::BP,
        13 => r::SP,
        14 => r::SI,
        15 => r::BX,
        16 => r::EBP,
        17 => r::RBP,
        18 => rng.pick(&[r::ESP, r::RSP]),
        _ => any_register(rng),
    }
}

pub fn stack_pointer(rng: &mut Rng) -> u8 {
    rng.pick(&[r::SP, r::SP, r::SP, r::ESP, r::RSP])
}

/// A register that code of 16 bits is likely to name.
pub fn register(rng: &mut Rng) -> u8 {
    match rng.below(20) {
        0..=10 => r::AX + rng.below(8) as u8,
        11..=13 => r::AL + rng.below(4) as u8,
        14 | 15 => r::AH + rng.below(4) as u8,
        16 => r::EAX + rng.below(8) as u8,
        17 => r::AX + rng.below(16) as u8,
        18 => rng.pick(&[r::ES, r::CS, r::SS, r::DS]),
        _ => any_register(rng),
    }
}

/// A number of 8 or 16 bits, now and then of another kind.
pub fn immediate(rng: &mut Rng, world: &World) -> Operand {
    let number = match rng.below(4) {
        0 => rng.below(0x80) as u64,
        1 => 0xffff - rng.below(0x90) as u64,
        2 => (rng.below(0x90) as u64 + 1).wrapping_neg(),
        _ => any_number(rng, world),
    };
    let kind = match rng.below(8) {
        0 | 1 => kind::IMM8,
        2 | 3 => kind::IMM16,
        4..=6 => kind::IMM8TO16,
        _ => rng.range(kind::IMM8 as usize, kind::IMM32TO64 as usize) as u8,
    };
    Operand { kind, register: 0, number }
}

/// The memory operand's fields: a word register or a pair of them, none, or now and then registers of 32 bits or a mixture.
pub fn memory(rng: &mut Rng, world: &World) -> Insn {
    let (base, index) = match rng.below(20) {
        0..=4 => (rng.pick(&ALONE), 0),
        5..=8 => rng.pick(&PAIRS),
        9 | 10 => (stack_pointer(rng), 0),
        11..=14 => (world.frame, 0),
        15 | 16 => (0, 0),
        17 => (r::EAX + rng.below(8) as u8, if rng.percent(50) { r::EAX + rng.below(8) as u8 } else { 0 }),
        18 => (rng.pick(&[0, r::EBP, r::RBP, r::SP]), r::AX + rng.below(16) as u8),
        _ => (register(rng), if rng.percent(30) { register(rng) } else { 0 }),
    };
    Insn {
        segment: rng.pick(&[r::DS, r::DS, r::DS, r::SS, r::SS, r::ES, r::CS, r::FS, r::GS, 0]),
        base,
        index,
        scale: if base / 16 == 4 || rng.percent(4) { rng.pick(&[1, 2, 4, 8]) } else { 1 },
        size: rng.pick(&[1, 1, 2, 2, 2, 2, 4, 0, 8, 6]),
        memory: displacement(rng, world),
        ..Insn::default()
    }
}

/// As 16 bits hold it, at the turns, and with more above these bits.
fn displacement(rng: &mut Rng, world: &World) -> u64 {
    match rng.below(10) {
        0..=2 => 2 * rng.below(0x18) as u64,
        3..=5 => 0x1_0000 - rng.range(1, 0x40) as u64,
        6 => rng.pick(&TURNS),
        7 => rng.u64() << 16 | rng.pick(&TURNS) & 0xffff,
        8 => (rng.range(1, 0x40) as u64).wrapping_neg(),
        _ => any_number(rng, world),
    }
}

const MEM: Operand = Operand { kind: kind::MEMORY, register: 0, number: 0 };

fn plain(register: u8) -> Operand {
    Operand { kind: kind::REGISTER, register, number: 0 }
}

fn insn(mnemonic: u8, operands: &[Operand]) -> Insn {
    let mut insn = Insn { mnemonic, count: operands.len() as u8, ..Insn::default() };
    insn.operands[..operands.len()].copy_from_slice(operands);
    insn
}

/// One to a few instructions of a driver.
pub fn recipe(rng: &mut Rng, world: &World, out: &mut Vec<Insn>) {
    match rng.below(7) {
        0 => enter(rng, out),
        1 => leave(rng, world, out),
        2 | 3 => push_and_call(rng, world, out),
        4 => port(rng, out),
        5 => {
            let how = rng.pick(&[m::MOV, m::LEA, m::MOVZX, m::CMPXCHG, m::XCHG]);
            let mut load = Insn { mnemonic: how, count: 2, ..memory_or_frame(rng, world) };
            load.operands[0] = plain(register(rng));
            load.operands[1] = MEM;
            load.operands[..2].rotate_left(rng.below(2));
            out.push(load);
        }
        _ => {
            let to = r::AX + rng.below(8) as u8;
            let how = rng.pick(&[m::MOV, m::ADD, m::CMP, m::INC, m::DEC]);
            out.push(two(rng, world, how, to));
        }
    }
}

/// A slot of the frame, or any memory operand.
fn memory_or_frame(rng: &mut Rng, world: &World) -> Insn {
    let memory = memory(rng, world);
    match world.frame != 0 && rng.percent(40) {
        true => Insn { base: world.frame, index: 0, ..memory },
        false => memory,
    }
}

/// `push bp`, `mov bp, sp`, `sub sp, n`.
fn enter(rng: &mut Rng, out: &mut Vec<Insn>) {
    out.push(insn(m::PUSH, &[plain(r::BP)]));
    out.push(insn(m::MOV, &[plain(r::BP), plain(stack_pointer(rng))]));
    let room = Operand { kind: rng.pick(&[kind::IMM16, kind::IMM8TO16]), register: 0, number: 2 * rng.below(0x20) as u64 };
    if rng.percent(60) {
        out.push(insn(m::SUB, &[plain(r::SP), room]));
    }
}

/// `mov sp, bp`, `lea sp, [bp-4]` or `add sp, n`, then `pop bp`.
fn leave(rng: &mut Rng, world: &World, out: &mut Vec<Insn>) {
    let sp = plain(stack_pointer(rng));
    out.push(match rng.below(3) {
        0 => insn(m::MOV, &[sp, plain(r::BP)]),
        1 => {
            let below = rng.range(1, 0x20) as u64;
            Insn { base: r::BP, segment: r::SS, memory: 0x1_0000 - below, ..insn(m::LEA, &[sp, MEM]) }
        }
        _ => insn(m::ADD, &[sp, immediate(rng, world)]),
    });
    out.push(insn(m::POP, &[plain(rng.pick(&[r::BP, r::BP, r::SI, r::DI, r::DX]))]));
}

/// Numbers, memory and registers pushed, a call, and the stack taken down.
fn push_and_call(rng: &mut Rng, world: &World, out: &mut Vec<Insn>) {
    for _ in 0..rng.below(4) {
        let mut push = one(rng, world, m::PUSH);
        match rng.below(3) {
            0 => push.operands[0] = immediate(rng, world),
            1 => push.operands[0] = MEM,
            _ => {}
        }
        out.push(push);
    }
    out.push(call(rng, world));
    if rng.percent(50) {
        let number = 2 * rng.below(4) as u64;
        out.push(insn(m::ADD, &[plain(r::SP), Operand { kind: kind::IMM8TO16, register: 0, number }]));
    }
}

/// `in al, dx` and a test of it, or `out dx, al`.
fn port(rng: &mut Rng, out: &mut Vec<Insn>) {
    let al = plain(rng.pick(&[r::AL, r::AL, r::AX]));
    let number = rng.below(0x100) as u64;
    let port = if rng.percent(70) { plain(r::DX) } else { Operand { kind: kind::IMM8, register: 0, number } };
    if rng.percent(40) {
        out.push(Insn { name: name("out"), ..insn(m::OTHER, &[port, al]) });
        return;
    }
    out.push(Insn { name: name("in"), ..insn(m::OTHER, &[al, port]) });
    if rng.percent(60) {
        let mask = Operand { kind: kind::IMM8, register: 0, number: 1 << rng.below(8) };
        out.push(insn(m::TEST, &[al, mask]));
    }
}
