//! A record's bytes.

use super::model::{Insn, Record, BLOCKS, BLOCK_EDGES, EDGES, INSTRUCTIONS};
use super::Unrecorded;

/// The indent that a listing starts with, so that labels stand out from the lines.
const INDENT: u8 = 1;

/// The bytes, or which limit the routine is over. The atlas and the spans are within theirs.
pub fn bytes(record: &Record) -> Result<Vec<u8>, Unrecorded> {
    let instructions = record.blocks.iter().map(|b| b.insns.len()).sum();
    let edges = record.blocks.iter().map(|b| b.edges.len()).sum();
    within(record.blocks.len(), BLOCKS, "blocks").map_err(Unrecorded::Limit)?;
    within(instructions, INSTRUCTIONS, "instructions").map_err(Unrecorded::Limit)?;
    within(edges, EDGES, "edges").map_err(Unrecorded::Limit)?;
    for block in record.blocks {
        within(block.edges.len(), BLOCK_EDGES, "edges of one block").map_err(Unrecorded::Other)?;
    }
    let mut out = Vec::with_capacity(24 + 12 * record.blocks.len() + 9 * edges + 100 * instructions);
    header(&mut out, record, instructions, edges);
    routine(&mut out, record);
    context(&mut out, record);
    Ok(out)
}

fn within(n: usize, limit: usize, what: &str) -> Result<(), String> {
    if n > limit {
        return Err(format!("{n} {what}, more than the {limit} that a record holds"));
    }
    Ok(())
}

fn header(out: &mut Vec<u8>, record: &Record, instructions: usize, edges: usize) {
    let text: usize = record.atlas.iter().map(|e| e.text.len()).sum();
    let sizes = [record.blocks.len(), instructions, edges, record.atlas.len(), record.spans.len(), record.frame.into()];
    // Arguments are passed Microsoft's way: number 0.
    for n in [record.bits, 0].into_iter().chain(sizes.map(|n| n as u16)) {
        out.extend(n.to_le_bytes());
    }
    out.extend(record.shift.unwrap_or(0).to_le_bytes());
    out.extend([record.shift.is_some().into(), INDENT]);
    out.extend((text as u16).to_le_bytes());
}

fn routine(out: &mut Vec<u8>, record: &Record) {
    let insns = || record.blocks.iter().flat_map(|b| &b.insns);
    let edges = || record.blocks.iter().flat_map(|b| &b.edges);
    record.blocks.iter().for_each(|b| out.extend(b.start.to_le_bytes()));
    for block in record.blocks {
        out.extend((block.insns.len() as u16).to_le_bytes());
        out.extend([block.edges.len() as u8, block.label.into()]);
    }
    edges().for_each(|e| out.extend(e.to.to_le_bytes()));
    edges().for_each(|e| out.push(e.kind));
    insns().for_each(|i| out.extend(i.address.to_le_bytes()));
    insns().for_each(|i| body(out, i));
}

fn body(out: &mut Vec<u8>, insn: &Insn) {
    out.extend([insn.mnemonic, insn.condition, insn.count, insn.skip.into()]);
    out.extend([insn.segment, insn.base, insn.index, insn.scale]);
    out.extend(insn.size.to_le_bytes());
    out.extend(insn.memory.to_le_bytes());
    for operand in insn.operands {
        out.extend([operand.kind, operand.register]);
        out.extend(operand.number.to_le_bytes());
    }
    out.extend(insn.name);
}

fn context(out: &mut Vec<u8>, record: &Record) {
    record.atlas.iter().for_each(|e| out.extend(e.address.to_le_bytes()));
    record.atlas.iter().for_each(|e| out.extend([e.kind as u8, e.text.len() as u8]));
    for (first, last) in record.spans {
        out.extend(first.to_le_bytes());
        out.extend(last.to_le_bytes());
    }
    record.atlas.iter().for_each(|e| out.extend(&e.text));
}
