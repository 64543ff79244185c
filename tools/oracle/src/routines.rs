//! All small routines (#112), written a second time from the request's words: "Produce every routine of one, two or three blocks".

pub mod programs;
pub mod table;
#[cfg(test)]
mod tests;
pub mod told;

use std::sync::OnceLock;

use crate::record::{edge, kind, mnemonic as m, name, register as r, Block, Edge, Insn, Operand, Record};

/// "18 if a number of 276 or more is asked for, asked first"
pub const NO_ROUTINE: u8 = 18;

/// "12 if the list is shorter than the record"
pub const NO_ROOM: u8 = 12;

/// A call: the number asked for, a list for the record, and one for the number of its bytes. Answers 0 or a number.
pub type Maker = fn(usize, &mut [u8], &mut [u64]) -> u8;

/// "The endings rank ret, fall, jmp by rising t, jne by rising t."
#[derive(Clone, Copy, Debug, PartialEq, Eq, PartialOrd, Ord)]
pub enum Ending {
    Ret,
    Fall,
    Jmp(usize),
    Jne(usize),
}

/// The endings of a block, by the number of blocks and its place, in their order.
type Endings = fn(usize, usize) -> Vec<Ending>;

/// All of them, in the request's order: "There are 2, 18 and 256."
pub fn all() -> Vec<Record> {
    ranked(endings)
}

/// "Fewer blocks come first"
fn ranked(endings: Endings) -> Vec<Record> {
    (1..=3).flat_map(|count| of_blocks(count, endings)).collect()
}

/// "then the first block's ending decides, then the second's and third's"
fn of_blocks(count: usize, endings: Endings) -> Vec<Record> {
    let mut routines = vec![Vec::new()];
    for place in 0..count {
        let endings = endings(count, place);
        let longer = |r: Vec<Ending>| endings.iter().map(move |e| [&r[..], &[*e]].concat()).collect::<Vec<_>>();
        routines = routines.into_iter().flat_map(longer).collect();
    }
    routines.iter().map(|endings| record(endings)).collect()
}

/// "The last block may not fall or branch conditionally."
fn endings(count: usize, place: usize) -> Vec<Ending> {
    let last = place + 1 == count;
    let jumps = (0..count).map(Ending::Jmp);
    match last {
        true => std::iter::once(Ending::Ret).chain(jumps).collect(),
        false => [Ending::Ret, Ending::Fall].into_iter().chain(jumps).chain((0..count).map(Ending::Jne)).collect(),
    }
}

/// "block k, from 0, starting at 0x1000 + 16 × k"
fn start(place: usize) -> u64 {
    0x1000 + 16 * place as u64
}

/// "Bits are 64, convention 1, indent 1, all labels wanted, no atlas and no spans."
fn record(endings: &[Ending]) -> Record {
    let blocks = endings.iter().enumerate().map(|(place, ending)| block(place, *ending)).collect();
    Record { bits: 64, convention: 1, indent: 1, blocks, ..Record::default() }
}

fn block(place: usize, ending: Ending) -> Block {
    let to = |place: usize, kind: u8| Edge { to: start(place), kind };
    let (insn, edges) = match ending {
        Ending::Ret => (Insn { mnemonic: m::RET, ..Insn::default() }, vec![]),
        Ending::Fall => (one_to_eax(), vec![to(place + 1, edge::FALL)]),
        Ending::Jmp(t) => (near(Insn { mnemonic: m::JMP, ..Insn::default() }, t), vec![to(t, edge::UNCOND)]),
        Ending::Jne(t) => {
            let jne = Insn { condition: 6, name: name("jne"), ..Insn::default() };
            (near(jne, t), vec![to(t, edge::TRUE), to(place + 1, edge::FALSE)])
        }
    };
    Block { start: start(place), label: 1, insns: vec![Insn { address: start(place), ..insn }], edges }
}

/// mov eax,1
fn one_to_eax() -> Insn {
    let mut mov = Insn { mnemonic: m::MOV, count: 2, ..Insn::default() };
    mov.operands[0].register = r::EAX;
    mov.operands[1] = Operand { kind: kind::IMM32, register: 0, number: 1 };
    mov
}

fn near(insn: Insn, place: usize) -> Insn {
    let mut insn = Insn { count: 1, ..insn };
    insn.operands[0] = Operand { kind: kind::NEAR, register: 0, number: start(place) };
    insn
}

/// Their bytes, made once.
pub fn bytes() -> &'static [Vec<u8>] {
    static BYTES: OnceLock<Vec<Vec<u8>>> = OnceLock::new();
    BYTES.get_or_init(|| all().iter().map(Record::to_bytes).collect())
}

/// "Checks: 18 if a number of 276 or more is asked for, asked first; 12 if the list is shorter than the record."
fn first_no(routines: &[Vec<u8>], k: usize, room: usize) -> u8 {
    match routines.get(k) {
        None => NO_ROUTINE,
        Some(record) if record.len() > room => NO_ROOM,
        Some(_) => 0,
    }
}

pub fn make(k: usize, out: &mut [u8], size: &mut [u64]) -> u8 {
    let no = first_no(bytes(), k, out.len());
    store(bytes(), no, k, out, size)
}

/// The lists of a call with this answer. With a number the list is as it was and the size 0.
fn store(routines: &[Vec<u8>], no: u8, k: usize, out: &mut [u8], size: &mut [u64]) -> u8 {
    let record: &[u8] = if no == 0 { &routines[k] } else { &[] };
    out[..record.len()].copy_from_slice(record);
    size.iter_mut().take(1).for_each(|size| *size = record.len() as u64);
    no
}
