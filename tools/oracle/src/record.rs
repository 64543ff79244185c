//! The record of document 01: its fields, its bytes, and where each array stands.

pub const HEADER: usize = 24;
pub const BODY: usize = 92;
pub const NAME: usize = 24;

/// Numbers of mnemonics that the generator and the tests name.
pub mod mnemonic {
    pub const OTHER: u8 = 0;
    pub const MOV: u8 = 1;
    pub const MOVZX: u8 = 2;
    pub const MOVSX: u8 = 3;
    pub const MOVSXD: u8 = 4;
    pub const LEA: u8 = 5;
    pub const XOR: u8 = 6;
    pub const AND: u8 = 7;
    pub const OR: u8 = 8;
    pub const ADD: u8 = 9;
    pub const SUB: u8 = 10;
    pub const SHL: u8 = 11;
    pub const SHR: u8 = 12;
    pub const SAR: u8 = 13;
    pub const INC: u8 = 16;
    pub const DEC: u8 = 17;
    pub const NEG: u8 = 18;
    pub const IMUL: u8 = 20;
    pub const PUSH: u8 = 21;
    pub const POP: u8 = 22;
    pub const CALL: u8 = 23;
    pub const RET: u8 = 24;
    pub const JMP: u8 = 25;
    pub const SETCC: u8 = 26;
    pub const CMOVCC: u8 = 27;
    pub const CMPXCHG: u8 = 28;
    pub const XCHG: u8 = 29;
    pub const CMP: u8 = 38;
    pub const TEST: u8 = 39;
    pub const BT: u8 = 40;
    pub const NOP: u8 = 42;
    pub const LAST: u8 = 45;
}

/// Operand kinds.
pub mod kind {
    pub const REGISTER: u8 = 0;
    pub const MEMORY: u8 = 1;
    pub const NEAR: u8 = 2;
    pub const IMM8: u8 = 3;
    pub const IMM16: u8 = 4;
    pub const IMM32: u8 = 5;
    pub const IMM8TO16: u8 = 7;
    pub const IMM32TO64: u8 = 10;
    pub const OTHER: u8 = 11;
}

/// Edge kinds.
pub mod edge {
    pub const UNCOND: u8 = 0;
    pub const TRUE: u8 = 1;
    pub const FALSE: u8 = 2;
    pub const FALL: u8 = 3;
    pub const CASE: u8 = 4;
}

/// Registers by number: class × 16 + index.
pub mod register {
    pub const NONE: u8 = 0;
    pub const AL: u8 = 16;
    pub const AH: u8 = 32;
    pub const AX: u8 = 48;
    pub const CX: u8 = 49;
    pub const DX: u8 = 50;
    pub const BX: u8 = 51;
    pub const SP: u8 = 52;
    pub const BP: u8 = 53;
    pub const SI: u8 = 54;
    pub const DI: u8 = 55;
    pub const EAX: u8 = 64;
    pub const EBX: u8 = 67;
    pub const ESP: u8 = 68;
    pub const EBP: u8 = 69;
    pub const RAX: u8 = 80;
    pub const RCX: u8 = 81;
    pub const RSP: u8 = 84;
    pub const RBP: u8 = 85;
    pub const RSI: u8 = 86;
    pub const RDI: u8 = 87;
    pub const EIP: u8 = 96;
    pub const RIP: u8 = 97;
    pub const ES: u8 = 112;
    pub const CS: u8 = 113;
    pub const SS: u8 = 114;
    pub const DS: u8 = 115;
    pub const FS: u8 = 116;
    pub const GS: u8 = 117;
}

#[derive(Clone, Debug, Default, PartialEq, Eq)]
pub struct Record {
    pub bits: u16,
    pub convention: u16,
    pub frame: u16,
    pub shift: i32,
    pub shift_given: u8,
    pub indent: u8,
    pub blocks: Vec<Block>,
    pub atlas: Vec<Entry>,
    pub spans: Vec<(u64, u64)>,
}

#[derive(Clone, Debug, Default, PartialEq, Eq)]
pub struct Block {
    pub start: u64,
    pub label: u8,
    pub insns: Vec<Insn>,
    pub edges: Vec<Edge>,
}

#[derive(Clone, Copy, Debug, Default, PartialEq, Eq)]
pub struct Edge {
    pub to: u64,
    pub kind: u8,
}

#[derive(Clone, Copy, Debug, Default, PartialEq, Eq)]
pub struct Operand {
    pub kind: u8,
    pub register: u8,
    pub number: u64,
}

#[derive(Clone, Copy, Debug, PartialEq, Eq)]
pub struct Insn {
    pub address: u64,
    pub mnemonic: u8,
    pub condition: u8,
    pub count: u8,
    pub skip: u8,
    pub segment: u8,
    pub base: u8,
    pub index: u8,
    pub scale: u8,
    pub size: u16,
    pub memory: u64,
    pub operands: [Operand; 5],
    pub name: [u8; NAME],
}

impl Default for Insn {
    fn default() -> Self {
        Insn {
            address: 0,
            mnemonic: 0,
            condition: 0,
            count: 0,
            skip: 0,
            segment: 0,
            base: 0,
            index: 0,
            scale: 1,
            size: 0,
            memory: 0,
            operands: [Operand::default(); 5],
            name: [0; NAME],
        }
    }
}

#[derive(Clone, Debug, Default, PartialEq, Eq)]
pub struct Entry {
    pub address: u64,
    pub kind: u8,
    pub text: Vec<u8>,
}

/// A name's bytes, then zeros.
pub fn name(text: &str) -> [u8; NAME] {
    let mut out = [0; NAME];
    out[..text.len()].copy_from_slice(text.as_bytes());
    out
}

/// Sizes as the header holds them, and the place where each array begins.
#[derive(Clone, Copy, Debug, Default)]
pub struct Layout {
    pub b: usize,
    pub i: usize,
    pub e: usize,
    pub a: usize,
    pub s: usize,
    pub t: usize,
    pub starts: usize,
    pub marks: usize,
    pub targets: usize,
    pub kinds: usize,
    pub addresses: usize,
    pub bodies: usize,
    pub atlas: usize,
    pub atlas_marks: usize,
    pub spans: usize,
    pub text: usize,
    pub end: usize,
}

impl Layout {
    pub fn new(b: usize, i: usize, e: usize, a: usize, s: usize, t: usize) -> Layout {
        let mut l = Layout { b, i, e, a, s, t, starts: HEADER, ..Layout::default() };
        l.marks = l.starts + 8 * b;
        l.targets = l.marks + 4 * b;
        l.kinds = l.targets + 8 * e;
        l.addresses = l.kinds + e;
        l.bodies = l.addresses + 8 * i;
        l.atlas = l.bodies + BODY * i;
        l.atlas_marks = l.atlas + 8 * a;
        l.spans = l.atlas_marks + 2 * a;
        l.text = l.spans + 16 * s;
        l.end = l.text + t;
        l
    }

    /// The layout that a header of at least 24 bytes announces.
    pub fn of(bytes: &[u8]) -> Layout {
        let n = |at: usize| u16::from_le_bytes([bytes[at], bytes[at + 1]]) as usize;
        Layout::new(n(4), n(6), n(8), n(10), n(12), n(22))
    }

    pub fn body(&self, n: usize) -> usize {
        self.bodies + BODY * n
    }
}

impl Block {
    /// Where the last instruction branches to, if it has a condition and a near branch as first operand, counted or not.
    pub fn branch_target(&self) -> Option<u64> {
        let last = self.insns.last()?;
        (last.condition != 0 && last.operands[0].kind == kind::NEAR).then_some(last.operands[0].number)
    }

    /// Where the last instruction jumps to, if it is a direct jmp.
    pub fn jump_target(&self) -> Option<u64> {
        let last = self.insns.last()?;
        (last.mnemonic == mnemonic::JMP && last.operands[0].kind == kind::NEAR).then_some(last.operands[0].number)
    }
}

impl Record {
    pub fn layout(&self) -> Layout {
        let i = self.blocks.iter().map(|b| b.insns.len()).sum();
        let e = self.blocks.iter().map(|b| b.edges.len()).sum();
        let t = self.atlas.iter().map(|a| a.text.len()).sum();
        Layout::new(self.blocks.len(), i, e, self.atlas.len(), self.spans.len(), t)
    }

    pub fn insns(&self) -> impl Iterator<Item = &Insn> {
        self.blocks.iter().flat_map(|b| b.insns.iter())
    }

    /// The place of the block that has instruction `n`.
    pub fn place_of(&self, n: usize) -> usize {
        let ends = self.blocks.iter().scan(0, |end, b| {
            *end += b.insns.len();
            Some(*end)
        });
        ends.take_while(|end| *end <= n).count()
    }

    fn edges(&self) -> impl Iterator<Item = &Edge> {
        self.blocks.iter().flat_map(|b| b.edges.iter())
    }

    pub fn to_bytes(&self) -> Vec<u8> {
        let l = self.layout();
        let mut out = Vec::with_capacity(l.end);
        for n in [self.bits, self.convention, l.b as u16, l.i as u16, l.e as u16, l.a as u16, l.s as u16, self.frame] {
            out.extend(n.to_le_bytes());
        }
        out.extend(self.shift.to_le_bytes());
        out.extend([self.shift_given, self.indent]);
        out.extend((l.t as u16).to_le_bytes());
        self.put_blocks(&mut out);
        self.put_insns(&mut out);
        self.put_atlas(&mut out);
        out
    }

    fn put_blocks(&self, out: &mut Vec<u8>) {
        for b in &self.blocks {
            out.extend(b.start.to_le_bytes());
        }
        for b in &self.blocks {
            out.extend((b.insns.len() as u16).to_le_bytes());
            out.extend([b.edges.len() as u8, b.label]);
        }
        for e in self.edges() {
            out.extend(e.to.to_le_bytes());
        }
        out.extend(self.edges().map(|e| e.kind));
    }

    fn put_insns(&self, out: &mut Vec<u8>) {
        for i in self.insns() {
            out.extend(i.address.to_le_bytes());
        }
        for i in self.insns() {
            out.extend([i.mnemonic, i.condition, i.count, i.skip, i.segment, i.base, i.index, i.scale]);
            out.extend(i.size.to_le_bytes());
            out.extend(i.memory.to_le_bytes());
            for o in &i.operands {
                out.extend([o.kind, o.register]);
                out.extend(o.number.to_le_bytes());
            }
            out.extend(i.name);
        }
    }

    fn put_atlas(&self, out: &mut Vec<u8>) {
        for a in &self.atlas {
            out.extend(a.address.to_le_bytes());
        }
        for a in &self.atlas {
            out.extend([a.kind, a.text.len() as u8]);
        }
        for (first, last) in &self.spans {
            out.extend(first.to_le_bytes());
            out.extend(last.to_le_bytes());
        }
        for a in &self.atlas {
            out.extend(&a.text);
        }
    }

    /// Reads a record whose sizes agree: questions 1, 4, 5 and the lengths of 9 got a yes.
    pub fn parse(bytes: &[u8]) -> Record {
        let l = Layout::of(bytes);
        let mut insns = (0..l.i).map(|n| read_insn(bytes, &l, n));
        let mut edges = (0..l.e).map(|n| Edge { to: u64_at(bytes, l.targets + 8 * n), kind: bytes[l.kinds + n] });
        let mut text = &bytes[l.text..];
        Record {
            bits: u16_at(bytes, 0),
            convention: u16_at(bytes, 2),
            frame: u16_at(bytes, 14),
            shift: u32_at(bytes, 16) as i32,
            shift_given: bytes[20],
            indent: bytes[21],
            blocks: (0..l.b)
                .map(|n| Block {
                    start: u64_at(bytes, l.starts + 8 * n),
                    label: bytes[l.marks + 4 * n + 3],
                    insns: insns.by_ref().take(u16_at(bytes, l.marks + 4 * n) as usize).collect(),
                    edges: edges.by_ref().take(bytes[l.marks + 4 * n + 2] as usize).collect(),
                })
                .collect(),
            atlas: (0..l.a)
                .map(|n| {
                    let (own, rest) = text.split_at(bytes[l.atlas_marks + 2 * n + 1] as usize);
                    text = rest;
                    Entry { address: u64_at(bytes, l.atlas + 8 * n), kind: bytes[l.atlas_marks + 2 * n], text: own.to_vec() }
                })
                .collect(),
            spans: (0..l.s).map(|n| (u64_at(bytes, l.spans + 16 * n), u64_at(bytes, l.spans + 16 * n + 8))).collect(),
        }
    }
}

fn read_insn(bytes: &[u8], l: &Layout, n: usize) -> Insn {
    let at = l.body(n);
    let b = &bytes[at..at + BODY];
    Insn {
        address: u64_at(bytes, l.addresses + 8 * n),
        mnemonic: b[0],
        condition: b[1],
        count: b[2],
        skip: b[3],
        segment: b[4],
        base: b[5],
        index: b[6],
        scale: b[7],
        size: u16_at(b, 8),
        memory: u64_at(b, 10),
        operands: std::array::from_fn(|k| {
            let o = 18 + 10 * k;
            Operand { kind: b[o], register: b[o + 1], number: u64_at(b, o + 2) }
        }),
        name: b[68..92].try_into().unwrap(),
    }
}

pub fn u16_at(bytes: &[u8], at: usize) -> u16 {
    u16::from_le_bytes(bytes[at..at + 2].try_into().unwrap())
}

pub fn u32_at(bytes: &[u8], at: usize) -> u32 {
    u32::from_le_bytes(bytes[at..at + 4].try_into().unwrap())
}

pub fn u64_at(bytes: &[u8], at: usize) -> u64 {
    u64::from_le_bytes(bytes[at..at + 8].try_into().unwrap())
}

/// The record of document 01's example.
pub fn example() -> Record {
    let operand = |kind: u8, register: u8, number: u64| Operand { kind, register, number };
    let insn = |address: u64, mnemonic: u8, operands: &[Operand]| {
        let mut i = Insn { address, mnemonic, count: operands.len() as u8, ..Insn::default() };
        i.operands[..operands.len()].copy_from_slice(operands);
        i
    };
    let eax = operand(kind::REGISTER, register::EAX, 0);
    let mut jne = insn(0x1002, mnemonic::OTHER, &[operand(kind::NEAR, 0, 0x1010)]);
    jne.condition = 6;
    jne.name = name("jne");
    let block = |start: u64, label: u8, insns: Vec<Insn>, edges: Vec<Edge>| Block { start, label, insns, edges };
    Record {
        bits: 64,
        convention: 1,
        indent: 1,
        blocks: vec![
            block(
                0x1000,
                0,
                vec![insn(0x1000, mnemonic::TEST, &[eax, eax]), jne],
                vec![Edge { to: 0x1010, kind: edge::TRUE }, Edge { to: 0x1004, kind: edge::FALSE }],
            ),
            block(
                0x1004,
                0,
                vec![insn(0x1004, mnemonic::MOV, &[eax, operand(kind::IMM32, 0, 5)])],
                vec![Edge { to: 0x1010, kind: edge::FALL }],
            ),
            block(0x1010, 1, vec![insn(0x1010, mnemonic::RET, &[])], vec![]),
        ],
        ..Record::default()
    }
}
