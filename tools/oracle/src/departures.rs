//! What document 02's requests leave out of the comparison with the unchanged Rust, or add to its lines, from their words: there the
//! amended one is asked.

use crate::record::{kind, mnemonic as m, Insn, Operand, Record};

/// "The nearest flag writer" is one of these, by document 01.
const FLAG_WRITERS: [u8; 15] =
    [m::CMP, m::TEST, m::ADD, m::SUB, m::AND, m::OR, m::XOR, m::INC, m::DEC, m::NEG, m::SHL, m::SHR, m::SAR, m::BT, m::IMUL];

/// e, ne, s and ns. Each is turned into one of them.
const ZERO_AND_SIGN: [u8; 4] = [5, 6, 9, 10];

/// #114: "The Rust has none of this, so demand 2 leaves bits 16 out": every line and piece of such a record departs.
pub fn whole(record: &Record) -> bool {
    record.bits == 16
}

/// #106: "negative 8to16 numbers leave the comparison with the Rust". "The span rule still comes first": one that is a name stays.
pub fn operand(record: &Record, operand: &Operand) -> bool {
    let n = operand.number;
    let is_name = n >= 0x1000 && record.spans.iter().any(|(first, last)| (*first..=*last).contains(&n));
    whole(record) || operand.kind == kind::IMM8TO16 && (-4096..0).contains(&(n as u16 as i16)) && !is_name
}

/// What a condition prints: #104, after BT or IMUL as the nearest flag writer "the conditions e, ne, s and ns now print the `__flags_` word";
/// #106, of the writer's operands. `insns` are those of the block before the instruction that tests the condition.
pub fn condition(record: &Record, insns: &[Insn], condition: u8) -> bool {
    if whole(record) {
        return true;
    }
    let Some(writer) = insns.iter().rfind(|i| FLAG_WRITERS.contains(&i.mnemonic)) else { return false };
    let no_relation = ZERO_AND_SIGN.contains(&condition) && [m::BT, m::IMUL].contains(&writer.mnemonic);
    no_relation || writer.operands.iter().any(|o| operand(record, o))
}

/// For each instruction of the record whether its line departs: by its operands, its condition, or what is pushed for the call that it is.
pub fn lines(record: &Record) -> Vec<bool> {
    let pushed = record.insns().any(|i| i.mnemonic == m::PUSH && operand(record, &i.operands[0]));
    let departs = |before: &[Insn], i: &Insn| {
        if whole(record) {
            return true;
        }
        let calls = pushed && [m::CALL, m::JMP].contains(&i.mnemonic);
        calls || i.operands.iter().any(|o| operand(record, o)) || i.condition != 0 && condition(record, before, i.condition)
    };
    let of = |insns: &[Insn]| (0..insns.len()).map(|n| departs(&insns[..n], &insns[n])).collect::<Vec<bool>>();
    record.blocks.iter().flat_map(|b| of(&b.insns)).collect()
}

/// #101: for each instruction of the record whether it has a line that the unchanged Rust does not write: "a block inside a do-body, other than
/// its last, that ends with a direct jump gets the same goto or return line as elsewhere, unless the target is the next block". `loops` are the
/// first and last places of the do-loops.
pub fn added(record: &Record, loops: &[(usize, usize)]) -> Vec<bool> {
    let mut out = Vec::new();
    for (place, block) in record.blocks.iter().enumerate() {
        let is_inside = loops.iter().any(|(first, last)| (*first..*last).contains(&place));
        let gets_line = is_inside && block.jump_target().is_some_and(|to| to != record.blocks[place + 1].start);
        let count = block.insns.len();
        out.extend((1..=count).map(|n| n == count && gets_line));
    }
    out
}
