//! True edges that contradict a block's last instruction (question 15), in every way.

use super::Call;
use crate::gen::{LIMIT_E, LIMIT_I};
use crate::record::{edge, kind, mnemonic as m, name, Block, Edge, Insn, Operand, Record};
use crate::rng::Rng;

/// Changes a block, mostly one that branches, so that its True edges are not what its last instruction asks for.
pub fn contradict(rng: &mut Rng, call: &mut Call) {
    let mut record = Record::parse(&call.bytes);
    let branching: Vec<usize> = (0..record.blocks.len()).filter(|&k| record.blocks[k].branch_target().is_some()).collect();
    if record.blocks.is_empty() {
        return;
    }
    let at = if branching.is_empty() || rng.percent(40) { rng.below(record.blocks.len()) } else { rng.pick(&branching) };
    let elsewhere = record.blocks[rng.below(record.blocks.len())].start;
    let block = &mut record.blocks[at];
    match block.edges.iter().position(|e| e.kind == edge::TRUE) {
        Some(right) if rng.percent(60) => wrong_edges(rng, block, right, elsewhere),
        Some(right) => no_branch(rng, block, right),
        None => edge_of_none(rng, block, elsewhere),
    }
    if record.layout().e <= LIMIT_E && record.layout().i <= LIMIT_I {
        call.bytes = record.to_bytes();
    }
}

/// A branch whose True edge is missing, is one of two, or goes elsewhere.
fn wrong_edges(rng: &mut Rng, block: &mut Block, right: usize, elsewhere: u64) {
    let last = block.insns.last_mut().expect("a block that branches has instructions");
    match rng.below(7) {
        0 => {
            block.edges.remove(right);
        }
        1 => block.edges[right].kind = other_kind(rng),
        // A branch counts as one even if none of its operands is counted.
        2 => {
            last.count = 0;
            block.edges.remove(right);
        }
        3 => {
            let again = block.edges[right];
            put_edge(rng, block, again);
        }
        4 => put_edge(rng, block, Edge { to: elsewhere, kind: edge::TRUE }),
        5 => block.edges[right].to = near_miss(rng, block.edges[right].to, elsewhere),
        _ => last.operands[0].number = near_miss(rng, last.operands[0].number, elsewhere),
    }
}

/// A True edge whose branch is gone: another instruction is last, or none, or the last has no condition or no near branch.
fn no_branch(rng: &mut Rng, block: &mut Block, right: usize) {
    let last = block.insns.last_mut().expect("a block that branches has instructions");
    match rng.below(6) {
        0 => {
            block.insns.pop();
        }
        1 => block.insns.clear(),
        2 => block.insns.push(Insn { mnemonic: m::NOP, ..Insn::default() }),
        3 if last.mnemonic == m::OTHER => last.condition = 0,
        4 => {
            let target = block.edges[right].to;
            *last =
                near(Insn { mnemonic: rng.pick(&[m::JMP, m::CALL]), count: 1, address: last.address, ..Insn::default() }, target);
        }
        // Beside a near branch in another slot.
        _ => {
            last.operands[1] = last.operands[0];
            last.operands[0].kind = rng.pick(&[0, 1, 3, 4, 5, 6, 10, 11]);
        }
    }
}

/// A True edge of a block that does not branch, or a branch in its place without a True edge.
fn edge_of_none(rng: &mut Rng, block: &mut Block, elsewhere: u64) {
    let to = Edge { to: elsewhere, kind: edge::TRUE };
    match rng.below(6) {
        0 | 1 if !block.edges.is_empty() => {
            let at = rng.below(block.edges.len());
            block.edges[at].kind = edge::TRUE;
        }
        2 => {
            block.insns.clear();
            put_edge(rng, block, to);
        }
        // A condition without a near branch.
        3 => {
            block.insns.push(Insn { mnemonic: rng.pick(&[m::SETCC, m::CMOVCC]), condition: 5, count: 2, ..Insn::default() });
            put_edge(rng, block, to);
        }
        4 => {
            let how = rng.pick(&[m::OTHER, m::OTHER, m::SETCC, m::CMOVCC]);
            let text = if how == m::OTHER { "jne" } else { "" };
            let jcc = Insn { mnemonic: how, condition: 6, count: rng.below(2) as u8, name: name(text), ..Insn::default() };
            block.insns.push(near(jcc, elsewhere));
        }
        _ => put_edge(rng, block, to),
    }
}

/// The instruction with a near branch as first operand.
fn near(insn: Insn, target: u64) -> Insn {
    let mut insn = insn;
    insn.operands[0] = Operand { kind: kind::NEAR, register: 0, number: target };
    insn
}

fn put_edge(rng: &mut Rng, block: &mut Block, e: Edge) {
    let at = rng.below(block.edges.len() + 1);
    block.edges.insert(at, e);
}

/// Any kind of edge but True.
fn other_kind(rng: &mut Rng) -> u8 {
    rng.pick(&[edge::UNCOND, edge::FALSE, edge::FALL, edge::CASE])
}

/// Another address: that of a block, or one that differs in a bit.
fn near_miss(rng: &mut Rng, address: u64, elsewhere: u64) -> u64 {
    if elsewhere != address && rng.percent(50) {
        elsewhere
    } else {
        address ^ 1 << rng.below(64)
    }
}
