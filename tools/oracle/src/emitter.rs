//! The unchanged Rust, and the one call that runs it over a record.
#![allow(dead_code, unused_variables, clippy::all)]

use std::collections::{BTreeMap, BTreeSet, HashMap};

use crate::binary::Binary;
use crate::iced::{ConditionCode, Instruction as Ins, Mnemonic, OpKind, Register};
use crate::model::{Format, StringEncoding, Token, TokenKind};
use crate::record::Record;

include!(concat!(env!("OUT_DIR"), "/pseudo.rs"));

/// No table of a switch is known, as document 01 says.
fn switch_lines(_ctx: &Ctx, _insns: &[Ins], _jmp: &Ins, _indent: u8) -> Option<Vec<PseudoLine>> {
    None
}

/// The lines of a range. An instruction's line has `tag` plus the instruction's number as its
/// address; the lines of blocks have the block's start.
pub fn run(record: &Record, from: usize, to: usize) -> (Vec<PseudoLine>, u64) {
    let tag = free_tag(record);
    let binary = Binary::new(record);
    let order: Vec<u64> = record.blocks.iter().map(|b| b.start).collect();
    let blocks = blocks(record, tag);
    let mut ctx = context(record, &binary, tag);
    let mut out = Vec::new();
    emit_range(&mut ctx, &blocks, &order, from, to, record.indent, &mut out, &mut BTreeSet::new());
    (out, tag)
}

/// The lines of the first block's instructions, without structure.
pub fn insns(record: &Record) -> (Vec<PseudoLine>, u64) {
    let tag = free_tag(record);
    let binary = Binary::new(record);
    let insns: Vec<Ins> = record.blocks[0].insns.iter().zip(tag..).map(|(i, ip)| Ins::new(i, ip)).collect();
    let mut ctx = context(record, &binary, tag);
    let mut out = Vec::new();
    emit_insns(&mut ctx, &insns, record.indent, &mut out, &HashMap::new(), &[], 0);
    (out, tag)
}

/// The whole range. A function of its own, which nothing calls again inside: `tools/bench count` counts what runs in it.
#[inline(never)]
fn emit_whole(
    ctx: &mut Ctx,
    blocks: &BTreeMap<u64, (Vec<Ins>, Vec<crate::model::Edge>)>,
    order: &[u64],
    indent: u8,
    out: &mut Vec<PseudoLine>,
) {
    emit_range(ctx, blocks, order, 0, order.len(), indent, out, &mut BTreeSet::new());
}

/// How long `times` listings of the whole range take, with the Rust's own structures made beforehand.
pub fn time(record: &Record, times: usize) -> std::time::Duration {
    let binary = Binary::new(record);
    let order: Vec<u64> = record.blocks.iter().map(|b| b.start).collect();
    let blocks = blocks(record, free_tag(record));
    let mut ctx = context(record, &binary, free_tag(record));
    let began = std::time::Instant::now();
    for _ in 0..times {
        let mut out = Vec::new();
        ctx.written.clear();
        ctx.pushes.clear();
        emit_whole(&mut ctx, &blocks, &order, record.indent, &mut out);
        std::hint::black_box(&out);
    }
    began.elapsed()
}

/// Every operand slot of every instruction, read as `Ctx::op` does.
pub fn operands(record: &Record) -> Vec<[Vec<Token>; 5]> {
    let binary = Binary::new(record);
    let ctx = context(record, &binary, 0);
    let slots = |i: &Ins| std::array::from_fn(|k| joined(ctx.op(i, k as u32)));
    record.insns().map(|i| slots(&Ins::new(i, 0))).collect()
}

/// Every instruction's memory operand, read, or as the address that `lea` prints.
pub fn memory(record: &Record, read: bool) -> Vec<Vec<Token>> {
    let binary = Binary::new(record);
    let ctx = context(record, &binary, 0);
    record.insns().map(|i| joined(ctx.mem(&Ins::new(i, 0), read))).collect()
}

/// What a condition (1 to 16) prints when each instruction tests it, block by block.
pub fn conditions(record: &Record, number: u8) -> Vec<Vec<Token>> {
    let binary = Binary::new(record);
    let ctx = context(record, &binary, 0);
    let mut out = Vec::new();
    for block in &record.blocks {
        let insns: Vec<Ins> = block.insns.iter().map(|i| Ins::new(i, 0)).collect();
        out.extend((1..=insns.len()).map(|n| joined(condition(&ctx, &insns[..n], ConditionCode::new(number)))));
    }
    out
}

/// The tokens as a line of their own has them.
fn joined(e: Expr) -> Vec<Token> {
    let mut line = Line::default();
    line.extend(e);
    line.toks
}

/// A number such that no block starts at it or at one of the I numbers after it.
fn free_tag(record: &Record) -> u64 {
    let taken: BTreeSet<u64> = record.blocks.iter().map(|b| b.start >> 48).collect();
    (0..=0xffffu64).rev().find(|k| !taken.contains(k)).expect("at most 200 blocks") << 48
}

fn blocks(record: &Record, tag: u64) -> BTreeMap<u64, (Vec<Ins>, Vec<crate::model::Edge>)> {
    let mut ip = tag..;
    record
        .blocks
        .iter()
        .map(|b| {
            let insns = b.insns.iter().map(|i| Ins::new(i, ip.next().unwrap())).collect();
            let edges = b.edges.iter().map(edge).collect();
            (b.start, (insns, edges))
        })
        .collect()
}

fn edge(e: &crate::record::Edge) -> crate::model::Edge {
    use crate::model::EdgeKind::*;
    crate::model::Edge { to: e.to, kind: [Uncond, True, False, Fall, Case][e.kind as usize] }
}

fn context<'a>(record: &Record, binary: &'a Binary, tag: u64) -> Ctx<'a> {
    Ctx {
        bin: binary,
        bits: record.bits as u32,
        frame_reg: (record.frame != 0).then(|| Register::new(record.frame as u8)),
        frame_shift: (record.shift_given == 1).then_some(record.shift as i128),
        labels: record.blocks.iter().filter(|b| b.label == 1).map(|b| b.start).collect(),
        written: Vec::new(),
        pushes: Vec::new(),
        skip: record.insns().zip(tag..).filter(|(i, _)| i.skip == 1).map(|(_, n)| n).collect(),
    }
}
