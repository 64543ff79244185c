//! Records that every question accepts, with the shapes that the emitter looks for.

mod atlas;
mod flow;
mod followed;
mod insns;
mod real;
mod senders;

use crate::record::{edge, kind, mnemonic as m, name, register as r, Block, Edge, Entry, Insn, Operand, Record};
use crate::rng::Rng;

use flow::{agree, block_starts, blocks, branch, jump_in_loops, set_addresses, want_labels};
use insns::{any_insn, any_register, indirect, one};

pub use followed::followed;
pub use senders::sender;

pub const LIMIT_B: usize = 200;
pub const LIMIT_I: usize = 500;
pub const LIMIT_E: usize = 600;
pub const LIMIT_A: usize = 200;
pub const LIMIT_S: usize = 32;
pub const LIMIT_T: usize = 4000;
pub const LIMIT_INDENT: usize = 55;

/// Numbers at which a rule turns.
const NUMBERS: [u64; 44] = [
    0, 1, 2, 4, 5, 8, 9, 10, 0xf, 0x10, 0x20, 0x30, 0x7f, 0x80, 0xff, 0xfff, 0x1000, 0x1001, 0x7fff, 0xffff, 0xfffff,
    0x7fff_ffff, 0x8000_0000, 0xffff_efff, 0xffff_f000, 0xffff_fff6, 0xffff_fff7, 0xffff_fff8, 0xffff_ffff, 0x1_0000_0000,
    0x1_ffff_efff, 0x1_ffff_ffff, 0x7fff_ffff_ffff_ffff, 0x8000_0000_0000_0000, 0x8000_0000_0000_0001, 0x8000_0000_ffff_ffff,
    0xffff_ffff_ffff_efff, 0xffff_ffff_ffff_f000, 0xffff_ffff_ffff_f001, 0xffff_ffff_ffff_ffd0, 0xffff_ffff_ffff_fff6,
    0xffff_ffff_ffff_fff7, 0xffff_ffff_ffff_fff8, 0xffff_ffff_ffff_ffff,
];

/// What the instructions of a record have in common.
struct World {
    bits: u16,
    frame: u8,
    /// How often, in percent, a branch or its edges are not as a compiler has them.
    noise: usize,
    starts: Vec<u64>,
    /// Addresses that something in the record stands at.
    known: Vec<u64>,
}

/// How large a record is to be.
#[derive(Clone, Copy)]
struct Size {
    /// At least and at most.
    blocks: (usize, usize),
    insns: usize,
    atlas: usize,
    spans: usize,
}

/// A valid record: mostly small, now and then at the limits.
pub fn valid(rng: &mut Rng) -> Record {
    match rng.below(1000) {
        0 => at_limits(rng),
        101..=110 => {
            let which = rng.below(7);
            around_limit(rng, which, 0)
        }
        111 => deepest(rng),
        112 => wordy(rng),
        1..=5 => sized(rng, Size { blocks: (60, 200), insns: 3, atlas: 20, spans: 4 }),
        6..=60 => sized(rng, Size { blocks: (12, 40), insns: 4, atlas: 8, spans: 3 }),
        61..=100 => sized(rng, Size { blocks: (0, 2), insns: 12, atlas: 4, spans: 2 }),
        _ => sized(rng, Size { blocks: (1, 9), insns: 3, atlas: 4, spans: 2 }),
    }
}

/// Now and then with bits 16, and with more jumps inside loops.
fn sized(rng: &mut Rng, size: Size) -> Record {
    let bits = match rng.below(100) {
        0..=64 => 64,
        65..=84 => 32,
        _ => 16,
    };
    let mut record = of_bits(rng, bits, size);
    let world = world(&record, record.blocks.iter().map(|b| b.start).collect());
    jump_in_loops(&mut rng.aside(), &world, &mut record);
    record
}

/// Without bits 16, which the Rust does not have: for the benchmark, where the port and the Rust list the same but for a few lines.
fn wide(rng: &mut Rng, size: Size) -> Record {
    let bits = if rng.percent(65) { 64 } else { 32 };
    of_bits(rng, bits, size)
}

fn of_bits(rng: &mut Rng, bits: u16, size: Size) -> Record {
    let mut record = Record {
        bits,
        convention: rng.below(2) as u16,
        indent: if rng.percent(70) { 1 } else { rng.range(0, LIMIT_INDENT) as u8 },
        ..Record::default()
    };
    choose_frame(rng, &mut record);
    let n = rng.range(size.blocks.0, size.blocks.1);
    let starts = block_starts(rng, n);
    record.spans = atlas::spans(rng, &starts, size.spans);
    record.atlas = atlas::atlas(rng, &starts, &record.spans, size.atlas);
    let world = World { noise: rng.pick(&[0, 0, 4]), ..world(&record, starts) };
    record.blocks = blocks(rng, &world, size.insns);
    settle(rng, &mut record);
    want_labels(rng, &mut record);
    record
}

/// A record of a few hundred bytes with something of everything.
pub fn small() -> Record {
    let mut other = Insn { address: 0x1004, count: 1, base: r::RBP, condition: 6, name: name("j_09az"), ..Insn::default() };
    other.operands[0] = Operand { kind: kind::NEAR, register: 0, number: 0x1000 };
    let set = Insn { address: 0x1000, mnemonic: m::SETCC, condition: 1, count: 2, index: r::RAX, scale: 8, ..Insn::default() };
    let mov = Insn { address: 0x1008, mnemonic: m::MOV, count: 2, segment: r::GS, skip: 1, ..Insn::default() };
    let to = |to: u64, kind: u8| Edge { to, kind };
    let entry = |address: u64, kind: u8, text: &str| Entry { address, kind, text: text.into() };
    Record {
        bits: 64,
        frame: r::RBP.into(),
        shift: -8,
        shift_given: 1,
        blocks: vec![
            Block {
                start: 0x1000,
                label: 1,
                insns: vec![set, other],
                edges: vec![to(0x1000, edge::TRUE), to(0x1008, edge::CASE)],
            },
            Block { start: 0x1100, insns: vec![mov], edges: vec![to(0x1_1000, edge::FALL)], ..Block::default() },
            Block { start: 0x1_1000, edges: vec![to(0x1000, edge::UNCOND)], ..Block::default() },
        ],
        atlas: vec![entry(0x2000, 1, "a\n"), entry(0x2001, 2, ""), entry(0x1_0000, 3, "n~ ")],
        spans: vec![(0x1000, 0x1000), (0, u64::MAX)],
        ..Record::default()
    }
}

/// A small record that one size puts at its limit, or `over` above it: B, I, E, A, S, T, indent.
pub fn around_limit(rng: &mut Rng, which: usize, over: usize) -> Record {
    let mut record = sized(rng, Size { blocks: (3, 3), insns: 1, atlas: 0, spans: 0 });
    let l = record.layout();
    match which {
        0 => {
            let free = (0..).filter(|a| record.blocks.iter().all(|b| b.start != *a));
            let more: Vec<u64> = free.take(LIMIT_B + over - l.b).collect();
            record.blocks.extend(more.into_iter().map(|start| Block { start, ..Block::default() }));
        }
        1 => fill_to(rng, &mut record, LIMIT_I + over, 0),
        2 => fill_to(rng, &mut record, 0, LIMIT_E + over),
        3 => record.atlas = (0..LIMIT_A + over).map(|n| Entry { address: n as u64, kind: 1, text: vec![] }).collect(),
        4 => record.spans = vec![(0x1000, 0x1fff); LIMIT_S + over],
        5 => record.atlas = long_atlas(LIMIT_T + over),
        _ => record.indent = (LIMIT_INDENT + over) as u8,
    }
    record
}

/// Names and strings of so many bytes.
fn long_atlas(mut total: usize) -> Vec<Entry> {
    let mut out = Vec::new();
    while total > 0 {
        let n = total.min(255);
        out.push(Entry { address: total as u64, kind: 1 + (total % 3) as u8, text: vec![b'x'; n] });
        total -= n;
    }
    out.reverse();
    out
}

/// Exactly at each limit.
pub fn at_limits(rng: &mut Rng) -> Record {
    let mut record = wide(rng, Size { blocks: (LIMIT_B, LIMIT_B), insns: 2, atlas: 0, spans: 0 });
    fill_to(rng, &mut record, LIMIT_I, LIMIT_E);
    record.atlas =
        (0..LIMIT_A as u64).map(|n| Entry { address: n * n * 16, kind: 1 + (n % 3) as u8, text: vec![b'a'; 20] }).collect();
    record.spans = (0..LIMIT_S as u64).map(|n| (n * 0x1000, n * 0x1000 + n)).collect();
    record.indent = LIMIT_INDENT as u8;
    record
}

/// If-regions in if-regions, as deep as the limits allow, around a loop or two.
pub fn deepest(rng: &mut Rng) -> Record {
    let n = rng.range(LIMIT_B - 3, LIMIT_B);
    let mut record = Record { bits: 64, indent: LIMIT_INDENT as u8, ..Record::default() };
    let starts: Vec<u64> = (1..=n as u64).map(|k| k * 0x10).collect();
    let world = world(&record, starts);
    for place in 0..n {
        let mut block = Block { start: world.starts[place], label: rng.below(2) as u8, ..Block::default() };
        match n - place {
            1 | 2 => block.insns.push(any_insn(rng, &world)),
            3 if rng.percent(50) => branch(rng, &world, &mut block, place - 1, place),
            _ => branch(rng, &world, &mut block, n - 1, place),
        }
        set_addresses(rng, &mut block);
        record.blocks.push(block);
    }
    settle(rng, &mut record);
    record
}

/// One block whose last instruction closes nothing.
pub fn one_block(rng: &mut Rng) -> Record {
    let mut record = sized(rng, Size { blocks: (1, 1), insns: 12, atlas: 4, spans: 2 });
    record.blocks[0].insns.push(Insn { mnemonic: m::NOP, address: 0x7fff_0000, ..Insn::default() });
    settle(rng, &mut record);
    record
}

/// Straight code: one block of 200 instructions.
pub fn straight(rng: &mut Rng) -> Record {
    let mut record = wide(rng, Size { blocks: (1, 1), insns: 1, atlas: 8, spans: 3 });
    fill_to(rng, &mut record, 200, 0);
    record
}

/// A routine of about 40 blocks and 200 instructions.
pub fn flow_rich(rng: &mut Rng) -> Record {
    let mut record = wide(rng, Size { blocks: (38, 42), insns: 4, atlas: 12, spans: 3 });
    fill_to(rng, &mut record, 200, 0);
    record
}

/// 500 instructions, pushes with a call now and then: each call looks back for its arguments.
pub fn pushes(rng: &mut Rng) -> Record {
    let mut record = Record { bits: 32, blocks: vec![Block { start: 0x1000, ..Block::default() }], ..Record::default() };
    let world = world(&record, vec![0x1000]);
    let far = rng.range(1, 250);
    let insns = (0..LIMIT_I).map(|n| if n % far == far - 1 { indirect(rng, &world, m::JMP) } else { one(rng, &world, m::PUSH) });
    record.blocks[0].insns = insns.collect();
    record
}

/// 500 instructions that name addresses of a full atlas.
pub fn named(rng: &mut Rng) -> Record {
    let mut record = wide(rng, Size { blocks: (1, 1), insns: 1, atlas: 0, spans: 0 });
    record.atlas =
        (0..LIMIT_A as u64).map(|n| Entry { address: 0x5000 + n * 16, kind: 1 + (n % 3) as u8, text: vec![b'a'; 20] }).collect();
    record.spans = (0..LIMIT_S as u64).map(|n| (0x5000 + n * 100, 0x5000 + n * 100 + 99)).collect();
    let mut load = one(rng, &world(&record, vec![0x1000]), m::MOV);
    load.operands[1] = Operand { kind: kind::IMM32, register: 0, number: 0x5000 };
    record.blocks[0].insns = vec![load; LIMIT_I];
    for (n, i) in record.blocks[0].insns.iter_mut().enumerate() {
        i.operands[1].number = 0x5000 + (n as u64 % LIMIT_A as u64) * 16;
    }
    settle(rng, &mut record);
    record
}

/// So many blocks, the same four again and again, two instructions each.
pub fn repeated(blocks: usize) -> Record {
    let rng = &mut Rng::new(3);
    let mut record = Record { bits: 64, ..Record::default() };
    let starts: Vec<u64> = (1..=blocks as u64).map(|k| k * 0x10).collect();
    let world = world(&record, starts);
    let body = any_insn(rng, &world);
    for place in 0..blocks {
        let mut block = Block { start: world.starts[place], insns: vec![body], ..Block::default() };
        let to = place / 4 * 4 + [3, 3, 0, 3][place % 4];
        if to < blocks && place % 4 != 3 {
            branch(rng, &world, &mut block, to, place);
        }
        record.blocks.push(block);
    }
    settle(rng, &mut record);
    record
}

/// Lines so long that the text or the tokens pass what the program `listing` holds.
fn wordy(rng: &mut Rng) -> Record {
    let text = vec![rng.pick(b"a\x7f\"\x01"); 130];
    let mut record = Record {
        bits: rng.pick(&[16, 32, 64]),
        atlas: vec![Entry { address: 0x5000, kind: rng.pick(&[1, 2, 3]), text: vec![b'n'; 130] }],
        spans: vec![(0x5000, 0x5fff)],
        blocks: vec![Block { start: 0x1000, ..Block::default() }],
        ..Record::default()
    };
    if record.atlas[0].kind < 3 {
        record.atlas[0].text = text;
    }
    let world = world(&record, vec![0x1000]);
    let lines = rng.range(10, 250);
    let slot = Operand { kind: kind::IMM32, register: 0, number: 0x5000 };
    let mut insns = vec![one(rng, &world, m::PUSH); lines];
    if rng.percent(50) {
        insns.iter_mut().for_each(|i| i.operands[0] = slot);
    }
    let long = Insn { operands: [slot; 5], count: 5, name: name("vlong"), ..Insn::default() };
    insns.resize_with(2 * lines, || if rng.percent(30) { long } else { indirect(rng, &world, m::JMP) });
    record.blocks[0].insns = insns;
    record
}

/// Adds instructions and edges up to the given totals.
pub fn fill_to(rng: &mut Rng, record: &mut Record, insns: usize, edges: usize) {
    let world = world(record, record.blocks.iter().map(|b| b.start).collect());
    for _ in record.layout().i..insns {
        let at = rng.below(record.blocks.len());
        let block = &mut record.blocks[at];
        let place = rng.below(block.insns.len().max(1));
        block.insns.insert(place, any_insn(rng, &world));
    }
    for _ in record.layout().e..edges {
        let at = rng.below(record.blocks.len());
        let to = rng.pick(&world.starts);
        record.blocks[at].edges.push(Edge { to, kind: rng.below(5) as u8 });
    }
    agree_within(rng, record, edges.max(LIMIT_E));
}

fn world(record: &Record, starts: Vec<u64>) -> World {
    let mut known = starts.clone();
    known.extend(record.atlas.iter().map(|a| a.address));
    for (first, last) in &record.spans {
        known.extend([*first, *last, first.wrapping_sub(1), last.wrapping_add(1)]);
    }
    World { bits: record.bits, frame: record.frame as u8, noise: 0, starts, known }
}

fn choose_frame(rng: &mut Rng, record: &mut Record) {
    let wide = record.bits == 64;
    record.frame = match rng.below(10) {
        _ if record.bits == 16 => real::frame(rng).into(),
        0..=3 => 0,
        4..=6 => (if wide { r::RBP } else { r::EBP }).into(),
        7 => {
            if wide {
                91
            } else {
                70
            }
        }
        8 => (if wide { r::RSP } else { r::ESP }).into(),
        _ => any_register(rng).into(),
    };
    if rng.percent(35) {
        record.shift_given = 1;
        record.shift = match rng.below(6) {
            0 => i32::MIN,
            1 => i32::MAX,
            2 => 0,
            3 => -(rng.below(0x80) as i32),
            _ => rng.below(0x80) as i32,
        };
    }
}

/// Keeps instructions and edges within their limits, and each block's True edges as its last instruction asks for them.
fn settle(rng: &Rng, record: &mut Record) {
    let mut room = LIMIT_I;
    for b in &mut record.blocks {
        b.insns.drain(..b.insns.len().saturating_sub(room));
        room -= b.insns.len();
    }
    agree_within(rng, record, LIMIT_E);
}

/// Makes True edges agree with last instructions, and drops others if there are more edges than `most` then.
fn agree_within(rng: &Rng, record: &mut Record, most: usize) {
    agree(&mut rng.aside(), record);
    let mut over = record.layout().e.saturating_sub(most);
    for b in record.blocks.iter_mut().rev() {
        b.edges.retain(|e| {
            let goes = over > 0 && e.kind != edge::TRUE;
            over -= usize::from(goes);
            !goes
        });
    }
}
