//! What #109 assumes of a record, in its words and order, and which of it a record breaks first.

use super::lines_of;
use super::listed::Reader;
use super::processor::place_at;
use crate::listing::Listing;
use crate::record::{edge, kind, mnemonic as m, Block, Edge, Insn, Layout, Record, HEADER};
use crate::{listing, questions};

/// The assumptions, by number from 1 on.
pub const ASSUMED: [&str; 12] = [
    "at least one block",
    "jumps, conditional branches and returns stand only last in a block",
    "no last instruction is skip-marked",
    "no setcc or cmovcc has a near branch",
    "no edge is Case",
    "no atlas entry has a block's start as its address",
    "no atlas or mnemonic 0 name begins with loc_",
    "no mnemonic 0 name is do, if, goto or return",
    "a direct jump to a block of the record has its one Uncond edge to that block",
    "a block that does not end in a jmp or return has the next block as its one Fall or False edge",
    "every conditional branch goes to a block of the record",
    "every goto to a block names a label that stands in the listing",
];

/// The call's answer, and what its list gets: the first assumption that is broken, 0 if all hold and with a number.
pub fn check(bytes: &[u8], broken: &mut [u64]) -> u8 {
    let blocks = if bytes.len() >= HEADER { Layout::of(bytes).b } else { 0 };
    let no = questions::first_no(bytes, 0, blocks);
    let first = if no == 0 { first_broken(&Record::parse(bytes)).expect("the Rust does not panic") } else { 0 };
    if let Some(entry) = broken.first_mut() {
        *entry = first as u64;
    }
    no
}

/// The first assumption that an accepted record breaks, or 0.
pub fn first_broken(record: &Record) -> Result<usize, String> {
    if let Some(first) = (1..12).find(|n| !holds(record, *n)) {
        return Ok(first);
    }
    let listing = listing::list_record(record, 0, record.blocks.len())?;
    Ok(if labels_stand(&listing) { 0 } else { 12 })
}

/// Whether one of the assumptions before the last holds, by its number.
pub fn holds(record: &Record, number: usize) -> bool {
    let blocks = &record.blocks;
    match number {
        1 => !blocks.is_empty(),
        2 => blocks.iter().all(|b| b.insns.iter().rev().skip(1).all(|i| !turns(i))),
        3 => blocks.iter().filter_map(|b| b.insns.last()).all(|i| i.skip == 0),
        4 => record.insns().all(|i| !matches!(i.mnemonic, m::SETCC | m::CMOVCC) || i.operands[0].kind != kind::NEAR),
        5 => blocks.iter().all(|b| b.edges.iter().all(|e| e.kind != edge::CASE)),
        6 => record.atlas.iter().all(|a| place_at(record, a.address).is_none()),
        7 => names(record).chain(atlas_names(record)).all(|name| !name.starts_with(b"loc_")),
        8 => names(record).all(|name| ![&b"do"[..], b"if", b"goto", b"return"].contains(&name)),
        9 => blocks.iter().all(|b| jump_is_led(record, b)),
        10 => (0..blocks.len()).all(|place| goes_on(blocks, place)),
        _ => blocks.iter().filter_map(Block::branch_target).all(|to| place_at(record, to).is_some()),
    }
}

/// "jumps, conditional branches and returns": a branch has a condition and a near branch as first operand, as in #108.
fn turns(insn: &Insn) -> bool {
    matches!(insn.mnemonic, m::JMP | m::RET) || insn.condition != 0 && insn.operands[0].kind == kind::NEAR
}

/// The names of instructions with mnemonic 0, without the zeros behind them.
fn names(record: &Record) -> impl Iterator<Item = &[u8]> {
    record.insns().filter(|i| i.mnemonic == m::OTHER).map(|i| i.name.split(|b| *b == 0).next().unwrap_or_default())
}

/// Those of the atlas: entries of kind 3.
fn atlas_names(record: &Record) -> impl Iterator<Item = &[u8]> {
    record.atlas.iter().filter(|a| a.kind == 3).map(|a| &a.text[..])
}

/// "its one Uncond edge to that block"
fn jump_is_led(record: &Record, block: &Block) -> bool {
    let Some(to) = block.jump_target().filter(|to| place_at(record, *to).is_some()) else { return true };
    one_edge(block, |e| e.kind == edge::UNCOND, to)
}

/// "has the next block as its one Fall or False edge"
fn goes_on(blocks: &[Block], place: usize) -> bool {
    let block = &blocks[place];
    if block.insns.last().is_some_and(|i| matches!(i.mnemonic, m::JMP | m::RET)) {
        return true;
    }
    let next = blocks.get(place + 1);
    next.is_some_and(|next| one_edge(block, |e| matches!(e.kind, edge::FALL | edge::FALSE), next.start))
}

fn one_edge(block: &Block, of_kind: impl Fn(&Edge) -> bool, to: u64) -> bool {
    let mut edges = block.edges.iter().filter(|e| of_kind(e));
    edges.next().is_some_and(|e| e.to == to) && edges.next().is_none()
}

/// "every goto to a block names a label that stands in the listing": where the others hold, every goto with a name is to a block.
pub fn labels_stand(listing: &Listing) -> bool {
    let lines = lines_of(listing);
    let reader = Reader::new(&lines);
    let mut gotos = reader.gotos();
    gotos.all(|name| reader.label(name).is_some())
}
