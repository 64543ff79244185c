//! Blocks, and how control goes from one to another.

use super::insns::{any_number, conditional, flag_writer, indirect, jcc, memory, operand, recipe, two};
use super::World;
use crate::record::{edge, kind, mnemonic as m, register as r, Block, Edge, Insn, Operand, Record, NAME};
use crate::rng::Rng;

/// Different addresses, mostly rising.
pub fn block_starts(rng: &mut Rng, n: usize) -> Vec<u64> {
    let mut starts: Vec<u64> = match rng.below(20) {
        0 => (0..n as u64).map(|k| k << 32 | 0x1000).collect(),
        1 => (0..n as u64).map(|k| (k << 56) ^ (k / 256)).collect(),
        2 => (0..n as u64).map(|k| if k % 2 == 0 { k } else { u64::MAX - k }).collect(),
        3 => {
            let odd = rng.u64() | 1;
            (1..=n as u64).map(|k| k.wrapping_mul(odd)).collect()
        }
        _ => {
            let mut at = rng.pick(&[0, 0x1000, 0x40_1000, 0x1_4000_1000, 0xffff_f800_0000_0000]);
            let mut step = || {
                at += rng.range(1, 0x20) as u64;
                at
            };
            (0..n).map(|_| step()).collect()
        }
    };
    match rng.below(20) {
        0..=12 => {}
        13..=16 if n > 1 => {
            let at = rng.below(n - 1);
            starts.swap(at, at + 1);
        }
        _ => rng.shuffle(&mut starts),
    }
    starts
}

pub fn blocks(rng: &mut Rng, world: &World, insns: usize) -> Vec<Block> {
    // How often control goes where a compiler would not send it.
    let wild = rng.pick(&[0, 0, 5, 25]);
    let nested = rng.below(20);
    let mut out = Vec::with_capacity(world.starts.len());
    for place in 0..world.starts.len() {
        let mut block = Block { start: world.starts[place], ..Block::default() };
        let want = if rng.percent(8) { 0 } else { rng.below(2 * insns + 1) };
        while block.insns.len() < want {
            recipe(rng, world, &mut block.insns);
        }
        match nested {
            0 | 1 => nest(rng, world, place, &mut block, nested == 0),
            _ => finish(rng, world, place, &mut block),
        }
        if rng.percent(wild) {
            block.edges.push(Edge { to: any_target(rng, world), kind: rng.below(5) as u8 });
        }
        set_addresses(rng, &mut block);
        out.push(block);
    }
    out
}

pub fn set_addresses(rng: &mut Rng, block: &mut Block) {
    let mut at = if rng.percent(4) { rng.any_width() } else { block.start };
    for insn in &mut block.insns {
        insn.address = at;
        if !rng.percent(5) {
            at = at.wrapping_add(rng.range(1, 7) as u64);
        }
        insn.skip = rng.percent(6) as u8;
    }
}

/// Regions in regions: `deep` ones all end at the last block, others at places that come nearer.
fn nest(rng: &mut Rng, world: &World, place: usize, block: &mut Block, deep: bool) {
    let last = world.starts.len() - 1;
    let to = match rng.below(8) {
        _ if deep => last,
        0 => last,
        1 => last.saturating_sub(place),
        _ => last - place / 8,
    };
    if to > place + 1 {
        branch(rng, world, block, to, place);
    } else {
        finish(rng, world, place, block);
    }
}

/// The end of a block: a branch, a jump, a return, or nothing, with the edges that go with it.
fn finish(rng: &mut Rng, world: &World, place: usize, block: &mut Block) {
    let n = world.starts.len();
    let forward = |rng: &mut Rng| (place + 1 + rng.below(5)).min(n - 1);
    match rng.below(100) {
        0..=32 => {
            let to = forward(rng);
            branch(rng, world, block, to, place);
        }
        33..=50 => {
            let to = if rng.percent(15) { place } else { place.saturating_sub(rng.below(6)) };
            branch(rng, world, block, to, place);
        }
        51..=60 => {
            let to = forward(rng);
            jump(rng, world, block, world.starts[to]);
        }
        61..=66 => jump(rng, world, block, world.starts[(place + 1).min(n - 1)]),
        67..=70 => {
            let to = rng.below(n);
            jump(rng, world, block, world.starts[to]);
        }
        71..=74 => {
            let to = any_number(rng, world);
            jump(rng, world, block, to);
        }
        75..=84 => give_back(rng, world, block),
        85..=87 => set_with_edge(rng, world, block),
        88..=90 => {
            block.insns.push(indirect(rng, world, m::JMP));
            for _ in 0..rng.below(4) {
                block.edges.push(Edge { to: any_target(rng, world), kind: edge::CASE });
            }
        }
        _ => fall(world, block, place),
    }
}

/// A return, mostly after a write of rax or a call that is near or just too far.
fn give_back(rng: &mut Rng, world: &World, block: &mut Block) {
    if rng.percent(60) {
        let how = if rng.percent(80) { m::MOV } else { m::CALL };
        block.insns.push(two(rng, world, how, if world.bits == 16 { r::AX } else { r::RAX }));
    }
    if rng.percent(30) {
        for _ in 0..rng.range(4, 7) {
            block.insns.push(Insn { mnemonic: m::NOP, ..Insn::default() });
        }
    }
    block.insns.push(Insn { mnemonic: m::RET, count: rng.below(2) as u8, ..memory(rng, world) });
}

fn fall(world: &World, block: &mut Block, place: usize) {
    if let Some(&to) = world.starts.get(place + 1) {
        block.edges.push(Edge { to, kind: edge::FALL });
    }
}

/// A conditional branch to a place, after something that sets flags, with its two edges.
pub fn branch(rng: &mut Rng, world: &World, block: &mut Block, to: usize, place: usize) {
    if rng.percent(70) {
        block.insns.push(flag_writer(rng, world));
        for _ in 0..rng.pick(&[0, 0, 0, 1, 2]) {
            block.insns.push(two(rng, world, m::MOV, 0));
        }
    }
    let target = world.starts[to];
    let mut insn = jcc(rng, world, target);
    if rng.percent(world.noise) {
        // A branch that is no near branch.
        insn.operands[0] = operand(rng, world);
        insn.count = rng.below(6) as u8;
    } else if rng.aside().percent(2 * world.noise) {
        // A near branch that is not counted: it is read all the same.
        insn.count = 0;
    }
    block.insns.push(insn);
    let told = if rng.percent(world.noise) { any_target(rng, world) } else { target };
    if !rng.percent(world.noise) {
        block.edges.push(Edge { to: told, kind: edge::TRUE });
    }
    if let Some(&next) = world.starts.get(place + 1) {
        block.edges.push(Edge { to: next, kind: if rng.percent(85) { edge::FALSE } else { edge::FALL } });
    }
    if rng.percent(5) {
        block.edges.reverse();
    }
}

fn jump(rng: &mut Rng, world: &World, block: &mut Block, target: u64) {
    let mut insn = Insn { mnemonic: m::JMP, count: 1, ..memory(rng, world) };
    insn.operands[0] = Operand { kind: kind::NEAR, register: 0, number: target };
    block.insns.push(insn);
    block.edges.push(Edge { to: target, kind: edge::UNCOND });
}

/// A setcc or cmovcc at the end of a block, now and then with a near branch, and an edge.
fn set_with_edge(rng: &mut Rng, world: &World, block: &mut Block) {
    block.insns.push(flag_writer(rng, world));
    let mut insn = conditional(rng, world);
    if rng.percent(20) {
        insn.operands[0] = Operand { kind: kind::NEAR, register: 0, number: any_target(rng, world) };
    }
    block.insns.push(insn);
    block.edges.push(Edge { to: any_target(rng, world), kind: edge::TRUE });
}

/// Gives each block the True edges that its last instruction asks for (question 15): the one to its branch's target, anywhere among the
/// others, or none. Other True edges become edges of another kind.
pub fn agree(rng: &mut Rng, record: &mut Record) {
    for block in &mut record.blocks {
        let target = block.branch_target();
        let right = block.edges.iter().position(|e| e.kind == edge::TRUE && Some(e.to) == target);
        for (n, e) in block.edges.iter_mut().enumerate() {
            if e.kind == edge::TRUE && Some(n) != right {
                e.kind = rng.pick(&[edge::UNCOND, edge::FALSE, edge::FALL, edge::CASE]);
            }
        }
        if let (Some(to), None) = (target, right) {
            let at = rng.below(block.edges.len() + 1);
            block.edges.insert(at, Edge { to, kind: edge::TRUE });
        }
    }
}

/// Puts a direct jump in the place of some last instructions inside loops (#101), often to no block and often skip-marked. No size grows, and
/// last instructions that branch stay.
pub fn jump_in_loops(rng: &mut Rng, world: &World, record: &mut Record) {
    for place in 0..record.blocks.len() {
        if record.blocks[place].branch_target().is_some() || !is_in_loop(record, place) || !rng.percent(35) {
            continue;
        }
        let target = if rng.percent(60) { any_number(rng, world) } else { rng.pick(&world.starts) };
        let block = &mut record.blocks[place];
        let Some(last) = block.insns.last_mut() else { continue };
        *last = Insn { mnemonic: m::JMP, condition: 0, count: 1, skip: rng.percent(25) as u8, name: [0; NAME], ..*last };
        last.operands[0] = Operand { kind: kind::NEAR, register: 0, number: target };
        if let Some(e) = block.edges.first_mut() {
            *e = Edge { to: target, kind: edge::UNCOND };
        }
        if let Some(to) = record.blocks.iter_mut().find(|b| b.start == target) {
            to.label |= rng.percent(75) as u8;
        }
    }
}

/// A later block branches to this one or to one before it.
fn is_in_loop(record: &Record, place: usize) -> bool {
    let before = &record.blocks[..=place];
    record.blocks[place + 1..].iter().filter_map(Block::branch_target).any(|to| before.iter().any(|b| b.start == to))
}

fn any_target(rng: &mut Rng, world: &World) -> u64 {
    if rng.percent(92) {
        rng.pick(&world.starts)
    } else {
        any_number(rng, world)
    }
}

pub fn want_labels(rng: &mut Rng, record: &mut Record) {
    let mode = rng.below(4);
    let targets: Vec<u64> =
        record.blocks.iter().flat_map(|b| b.edges.iter().filter(|e| e.kind != edge::FALL).map(|e| e.to)).collect();
    for b in &mut record.blocks {
        b.label = match mode {
            0 => rng.percent(50) as u8,
            _ => targets.contains(&b.start) as u8,
        };
    }
}
