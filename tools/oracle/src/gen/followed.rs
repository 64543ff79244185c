//! Records for #109: most are as the request assumes, and in the others one assumption or another is broken.

use super::flow::agree;
use super::{sized, Size};
use crate::record::{edge, kind, mnemonic as m, name, register as r, Block, Edge, Entry, Insn, Operand, Record};
use crate::rng::Rng;

/// How many things are put right, each of which may be left as it came.
const THINGS: usize = 10;

/// Branches to no block.
const OUTSIDE: usize = 2;

/// From here on edges, marks and names.
const EDGES: usize = 4;

/// A generated record with what #109 assumes put right: all of it, or all but a thing or two.
pub fn followed(rng: &mut Rng) -> Record {
    let blocks = rng.pick(&[(0, 2), (1, 2), (1, 4), (2, 6), (2, 6), (2, 6), (4, 9), (4, 9), (4, 9), (10, 30)]);
    let mut record = sized(rng, Size { blocks, insns: 2, atlas: 4, spans: 2 });
    if rng.percent(35) {
        nest_ifs(rng, &mut record);
    }
    let left = if rng.percent(70) { [THINGS; 2] } else { [rng.below(THINGS), rng.below(2 * THINGS)] };
    let is_left = |thing: &usize| left.contains(thing);
    if is_left(&OUTSIDE) {
        branch_outside(rng, &mut record);
    }
    (0..EDGES).filter(|thing| !is_left(thing)).for_each(|thing| put_right(rng, &mut record, thing));
    agree(rng, &mut record);
    (EDGES..THINGS).filter(|thing| !is_left(thing)).for_each(|thing| put_right(rng, &mut record, thing));
    if rng.percent(10) {
        odd(rng, &mut record);
    }
    record
}

/// What is put right of instructions, before True edges are made to agree with them, and from `EDGES` on of edges, marks and names.
fn put_right(rng: &mut Rng, record: &mut Record, thing: usize) {
    match thing {
        0 => each_block(record, turns_last),
        1 => each_block(record, |b| b.insns.iter_mut().for_each(no_set_branch)),
        OUTSIDE => branches_inside(rng, record),
        3 => end_last(rng, record),
        EDGES => each_block(record, |b| b.edges.retain(|e| e.kind != edge::CASE)),
        5 => each_block(record, |b| b.insns.iter_mut().rev().take(1).for_each(|last| last.skip = 0)),
        6 => {
            let starts = starts(record);
            record.atlas.retain(|a| !starts.contains(&a.address));
        }
        7 => jumps_led(record),
        8 => others_led(rng, record),
        _ if rng.percent(90) => each_block(record, |b| b.label = 1),
        _ => {}
    }
}

fn starts(record: &Record) -> Vec<u64> {
    record.blocks.iter().map(|b| b.start).collect()
}

/// Puts branches over later blocks behind some blocks, each ending where one that is open does or before.
fn nest_ifs(rng: &mut Rng, record: &mut Record) {
    let starts = starts(record);
    let mut ends: Vec<usize> = Vec::new();
    for place in 0..starts.len() {
        ends.retain(|end| *end > place);
        let most = ends.last().copied().unwrap_or(starts.len() - 1);
        if place + 2 > most || !rng.percent(50) {
            continue;
        }
        let to = if rng.percent(40) { most } else { rng.range(place + 2, most) };
        ends.push(to);
        let block = &mut record.blocks[place];
        let address = block.insns.pop().map_or(block.start, |last| last.address);
        let mut jcc = Insn { address, condition: rng.range(1, 16) as u8, count: 1, name: name("jcc"), ..Insn::default() };
        jcc.operands[0] = Operand { kind: kind::NEAR, register: 0, number: starts[to] };
        block.insns.push(jcc);
    }
}

/// One branch goes to no block.
fn branch_outside(rng: &mut Rng, record: &mut Record) {
    let branching: Vec<usize> = (0..record.blocks.len()).filter(|k| record.blocks[*k].branch_target().is_some()).collect();
    if branching.is_empty() {
        return;
    }
    let far = starts(record).into_iter().max().unwrap_or(0).wrapping_add(0x77);
    if let Some(last) = record.blocks[rng.pick(&branching)].insns.last_mut() {
        last.operands[0].number = far;
    }
}

fn each_block(record: &mut Record, change: impl FnMut(&mut Block)) {
    record.blocks.iter_mut().for_each(change);
}

fn turns(insn: &Insn) -> bool {
    matches!(insn.mnemonic, m::JMP | m::RET) || insn.condition != 0 && insn.operands[0].kind == kind::NEAR
}

/// Without the jumps, branches and returns before the last instruction.
fn turns_last(block: &mut Block) {
    if let Some(last) = block.insns.pop() {
        block.insns.retain(|i| !turns(i));
        block.insns.push(last);
    }
}

fn no_set_branch(insn: &mut Insn) {
    if matches!(insn.mnemonic, m::SETCC | m::CMOVCC) && insn.operands[0].kind == kind::NEAR {
        insn.operands[0] = Operand { kind: kind::REGISTER, register: r::EAX, number: 0 };
    }
}

fn branches_inside(rng: &mut Rng, record: &mut Record) {
    let starts = starts(record);
    each_block(record, |b| {
        if b.branch_target().is_some_and(|to| !starts.contains(&to)) {
            let last = b.insns.last_mut().expect("a block that branches has instructions");
            last.operands[0].number = rng.pick(&starts);
        }
    });
}

/// The last block ends in a return or a jump.
fn end_last(rng: &mut Rng, record: &mut Record) {
    let starts = starts(record);
    let Some(block) = record.blocks.last_mut() else { return };
    if block.insns.last().is_some_and(|i| matches!(i.mnemonic, m::JMP | m::RET)) {
        return;
    }
    let address = block.insns.pop().map_or(block.start, |last| last.address);
    let mut end = Insn { address, mnemonic: rng.pick(&[m::RET, m::RET, m::JMP]), ..Insn::default() };
    if end.mnemonic == m::JMP {
        end.count = 1;
        end.operands[0] = Operand { kind: kind::NEAR, register: 0, number: rng.pick(&starts) };
    }
    block.insns.push(end);
}

/// One Uncond edge to the block that a jump goes to; those of other kinds stay.
fn jumps_led(record: &mut Record) {
    let starts = starts(record);
    each_block(record, |b| {
        if let Some(to) = b.jump_target().filter(|to| starts.contains(to)) {
            b.edges.retain(|e| e.kind != edge::UNCOND);
            b.edges.push(Edge { to, kind: edge::UNCOND });
        }
    });
}

/// One Fall or False edge to the next block; those of other kinds stay.
fn others_led(rng: &mut Rng, record: &mut Record) {
    let starts = starts(record);
    for (place, block) in record.blocks.iter_mut().enumerate() {
        let ends = block.insns.last().is_some_and(|i| matches!(i.mnemonic, m::JMP | m::RET));
        // Another edge of a jump or a return now and then stays: it is read by the search for loops and regions.
        if !ends || rng.percent(50) {
            block.edges.retain(|e| !matches!(e.kind, edge::FALL | edge::FALSE));
        }
        if let Some(next) = starts.get(place + 1).filter(|_| !ends) {
            let at = rng.below(block.edges.len() + 1);
            block.edges.insert(at, Edge { to: *next, kind: rng.pick(&[edge::FALL, edge::FALSE]) });
        }
    }
}

/// Names that a reader of the text alone would misread, and an atlas entry at a block's start.
fn odd(rng: &mut Rng, record: &mut Record) {
    let address = record.blocks.first().map_or(0, |b| b.start) ^ if rng.percent(50) { 0 } else { 1 << 40 };
    if rng.percent(40) && record.atlas.iter().all(|a| a.address != address) {
        let text = rng.pick(&["loc_1", "loc_", "lock_1", "do", "x"]).into();
        record.atlas.push(Entry { address, kind: rng.pick(&[1, 3, 3]), text });
        record.atlas.sort_by_key(|a| a.address);
    }
    let word = rng.pick(&["loc_1", "loc_", "loc", "do", "if", "goto", "return", "dox", "i", "returns"]);
    let mut others: Vec<&mut Insn> =
        record.blocks.iter_mut().flat_map(|b| &mut b.insns).filter(|i| i.mnemonic == m::OTHER).collect();
    let at = rng.below(others.len());
    if let Some(insn) = others.get_mut(at) {
        insn.name = name(word);
    }
}
