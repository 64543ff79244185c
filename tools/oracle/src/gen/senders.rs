//! Routines that send commands: strings go into registers, calls by name take them, and now and then something stands between.

use super::insns::{any_insn, argument_register, indirect, one, two};
use super::{flow, Size, World};
use crate::literals;
use crate::record::{kind, mnemonic as m, register as r, Entry, Insn, Operand, Record};
use crate::rng::Rng;

/// Where the names of calls stand, and the strings.
const CALLED: u64 = 0x40_2000;
const STRINGS: u64 = 0x40_3000;
const NAMES: [&str; 3] = ["SendCommand", "SendCommandW", "ShowLine"];
const MOST_STRINGS: usize = 6;

pub fn sender(rng: &mut Rng) -> Record {
    let mut record = super::sized(rng, Size { blocks: (1, 5), insns: 1, atlas: 0, spans: 0 });
    record.spans = vec![(CALLED, STRINGS + 0xfff)];
    let named = |(n, name): (usize, &&str)| Entry { address: CALLED + 16 * n as u64, kind: 3, text: name.as_bytes().to_vec() };
    record.atlas = NAMES.iter().enumerate().map(named).collect();
    let string =
        |n: usize| Entry { address: STRINGS + 16 * n as u64, kind: rng.range(1, 2) as u8, text: literals::any::string(rng) };
    record.atlas.extend((0..MOST_STRINGS).map(string));
    let world = super::world(&record, record.blocks.iter().map(|block| block.start).collect());
    for block in &mut record.blocks {
        // A block's last instruction stays the last one, since its True edge goes with it.
        if block.insns.is_empty() {
            block.insns.push(load(rng, &world));
        }
        for _ in 0..rng.range(1, 4) {
            let at = rng.below(block.insns.len());
            block.insns.splice(at..at, sending(rng, &world));
        }
        flow::set_addresses(rng, block);
    }
    record
}

/// A string into a register, what may stand behind it, and mostly a call by name.
fn sending(rng: &mut Rng, world: &World) -> Vec<Insn> {
    let mut insns = vec![load(rng, world)];
    insns.extend((0..rng.below(3)).map(|_| between(rng, world)));
    if rng.percent(80) {
        insns.push(call(rng));
    }
    insns
}

fn call(rng: &mut Rng) -> Insn {
    let mut call = Insn { mnemonic: m::CALL, count: 1, ..Insn::default() };
    call.operands[0] = Operand { kind: kind::NEAR, register: 0, number: called(rng) };
    call
}

fn called(rng: &mut Rng) -> u64 {
    CALLED + 16 * rng.below(NAMES.len()) as u64
}

/// Another string, another value, another call, or any instruction.
fn between(rng: &mut Rng, world: &World) -> Insn {
    match rng.below(10) {
        0..=2 => load(rng, world),
        3 => call(rng),
        4 => Insn { base: r::RIP, memory: called(rng), ..indirect(rng, world, m::CALL) },
        5 => indirect(rng, world, m::CALL),
        6 | 7 => {
            let how = rng.pick(&[m::MOV, m::XOR, m::ADD, m::INC]);
            let to = argument_register(rng, world);
            two(rng, world, how, to)
        }
        8 => {
            let how = rng.pick(&[m::POP, m::PUSH, 14]);
            one(rng, world, how)
        }
        _ => any_insn(rng, world),
    }
}

/// `lea rdx, [rel string]` or `mov edx, string`.
fn load(rng: &mut Rng, world: &World) -> Insn {
    let string = STRINGS + 16 * rng.below(MOST_STRINGS) as u64;
    let mut insn = Insn { mnemonic: m::LEA, count: 2, base: r::RIP, memory: string, ..Insn::default() };
    insn.operands[0] = Operand { kind: kind::REGISTER, register: argument_register(rng, world), number: 0 };
    insn.operands[1] = Operand { kind: kind::MEMORY, ..Operand::default() };
    if rng.percent(40) {
        insn.mnemonic = m::MOV;
        insn.operands[1] = Operand { kind: kind::IMM32, register: 0, number: string };
    }
    insn
}
