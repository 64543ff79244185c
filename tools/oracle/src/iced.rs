//! What the emitter asks of its decoder, answered by a record's body.
#![allow(non_upper_case_globals, non_camel_case_types, dead_code)]

use std::cell::Cell;
use std::fmt;

use crate::record::Insn;

#[derive(Clone, Copy, PartialEq, Eq)]
pub struct Register(u8);

/// Spellings by class and index; `None` for numbers that no register has.
const WIDE: [&str; 16] = ["AX", "CX", "DX", "BX", "SP", "BP", "SI", "DI", "8", "9", "10", "11", "12", "13", "14", "15"];
const LOW: [&str; 8] = ["AL", "CL", "DL", "BL", "SPL", "BPL", "SIL", "DIL"];
const HIGH: [&str; 4] = ["AH", "CH", "DH", "BH"];
const SEGMENTS: [&str; 6] = ["ES", "CS", "SS", "DS", "FS", "GS"];

impl Register {
    pub const None: Register = Register(0);
    /// Asked for by the amended Rust alone.
    pub const SP: Register = Register(52);
    pub const EAX: Register = Register(64);
    pub const ECX: Register = Register(65);
    pub const EDX: Register = Register(66);
    pub const EBX: Register = Register(67);
    pub const ESP: Register = Register(68);
    pub const EBP: Register = Register(69);
    pub const ESI: Register = Register(70);
    pub const EDI: Register = Register(71);
    pub const RAX: Register = Register(80);
    pub const RCX: Register = Register(81);
    pub const RDX: Register = Register(82);
    pub const RBX: Register = Register(83);
    pub const RSP: Register = Register(84);
    pub const RBP: Register = Register(85);
    pub const RSI: Register = Register(86);
    pub const RDI: Register = Register(87);
    pub const R8: Register = Register(88);
    pub const R9: Register = Register(89);
    pub const R10: Register = Register(90);
    pub const R11: Register = Register(91);
    pub const R12: Register = Register(92);
    pub const R13: Register = Register(93);
    pub const R14: Register = Register(94);
    pub const R15: Register = Register(95);
    pub const EIP: Register = Register(96);
    pub const RIP: Register = Register(97);
    pub const FS: Register = Register(116);
    pub const GS: Register = Register(117);

    pub fn new(number: u8) -> Register {
        Register(number)
    }

    fn class(self) -> u8 {
        self.0 / 16
    }

    fn index(self) -> usize {
        (self.0 % 16) as usize
    }

    /// ax to r15w. Asked by the amended Rust alone.
    pub fn is_gpr16(self) -> bool {
        self.class() == 3
    }

    /// The 64-bit register that holds this one.
    pub fn full_register(self) -> Register {
        match self.class() {
            1..=5 => Register(80 + self.0 % 16),
            6 => Register::RIP,
            8 => Register(144 + self.0 % 16),
            _ => self,
        }
    }

    /// Width in bytes.
    pub fn size(self) -> usize {
        match (self.class(), self.index()) {
            (1 | 2, _) => 1,
            (3, _) => 2,
            (4, _) => 4,
            (5, _) => 8,
            (6, 0) => 4,
            (6, _) => 8,
            (7, _) => 2,
            (8, _) => 16,
            (9, _) => 32,
            _ => 0,
        }
    }
}

impl fmt::Debug for Register {
    fn fmt(&self, f: &mut fmt::Formatter<'_>) -> fmt::Result {
        let i = self.index();
        match (self.class(), i) {
            (0, _) => f.write_str("None"),
            (1, 0..=7) => f.write_str(LOW[i]),
            (1, _) => write!(f, "R{i}L"),
            (2, _) => f.write_str(HIGH[i]),
            (3, 0..=7) => f.write_str(WIDE[i]),
            (3, _) => write!(f, "R{i}W"),
            (4, 0..=7) => write!(f, "E{}", WIDE[i]),
            (4, _) => write!(f, "R{i}D"),
            (5, _) => write!(f, "R{}", WIDE[i]),
            (6, 0) => f.write_str("EIP"),
            (6, _) => f.write_str("RIP"),
            (7, _) => f.write_str(SEGMENTS[i]),
            (8, _) => write!(f, "XMM{i}"),
            _ => write!(f, "YMM{i}"),
        }
    }
}

/// A mnemonic's number; the name is the record's for number 0.
#[derive(Clone, Copy, PartialEq, Eq)]
pub struct Mnemonic(u8, [u8; 24]);

macro_rules! mnemonics {
    ($($name:ident = $n:expr),* $(,)?) => {
        impl Mnemonic {
            $(pub const $name: Mnemonic = Mnemonic($n, [0; 24]);)*
        }
        const MNEMONICS: [&str; 45] = [$(stringify!($name)),*];
    };
}

mnemonics! {
    Mov = 1, Movzx = 2, Movsx = 3, Movsxd = 4, Lea = 5, Xor = 6, And = 7, Or = 8, Add = 9, Sub = 10,
    Shl = 11, Shr = 12, Sar = 13, Rol = 14, Ror = 15, Inc = 16, Dec = 17, Neg = 18, Not = 19, Imul = 20,
    Push = 21, Pop = 22, Call = 23, Ret = 24, Jmp = 25, Setcc = 26, Cmovcc = 27, Cmpxchg = 28, Xchg = 29,
    Rdtsc = 30, Cpuid = 31, Cdq = 32, Cqo = 33, Cdqe = 34, Cwde = 35, Ud2 = 36, Hlt = 37, Cmp = 38, Test = 39,
    Bt = 40, Leave = 41, Nop = 42, Int3 = 43, Endbr64 = 44, Endbr32 = 45,
}

/// A name given by the record stays in lower case, so that `sete` is not taken for a setcc.
impl fmt::Debug for Mnemonic {
    fn fmt(&self, f: &mut fmt::Formatter<'_>) -> fmt::Result {
        if self.0 > 0 {
            return f.write_str(MNEMONICS[self.0 as usize - 1]);
        }
        let end = self.1.iter().position(|&b| b == 0).unwrap_or(24);
        f.write_str(std::str::from_utf8(&self.1[..end]).unwrap_or("?"))
    }
}

#[derive(Clone, Copy, Debug, PartialEq, Eq)]
pub enum ConditionCode {
    None,
    o,
    no,
    b,
    ae,
    e,
    ne,
    be,
    a,
    s,
    ns,
    p,
    np,
    l,
    ge,
    le,
    g,
}

impl ConditionCode {
    pub fn new(number: u8) -> ConditionCode {
        use ConditionCode::*;
        [None, o, no, b, ae, e, ne, be, a, s, ns, p, np, l, ge, le, g][number as usize]
    }
}

#[derive(Clone, Copy, Debug, PartialEq, Eq)]
pub enum OpKind {
    Register,
    Memory,
    NearBranch16,
    NearBranch32,
    NearBranch64,
    Immediate8,
    Immediate16,
    Immediate32,
    Immediate64,
    Immediate8to16,
    Immediate8to32,
    Immediate8to64,
    Immediate32to64,
    Other,
}

const KINDS: [OpKind; 12] = [
    OpKind::Register,
    OpKind::Memory,
    OpKind::NearBranch64,
    OpKind::Immediate8,
    OpKind::Immediate16,
    OpKind::Immediate32,
    OpKind::Immediate64,
    OpKind::Immediate8to16,
    OpKind::Immediate8to32,
    OpKind::Immediate8to64,
    OpKind::Immediate32to64,
    OpKind::Other,
];

pub struct MemorySize(u16);

impl MemorySize {
    pub fn size(self) -> usize {
        self.0 as usize
    }
}

#[derive(Clone)]
pub struct Instruction {
    body: Insn,
    ip: u64,
    /// The operand whose kind was asked last: the one that a near branch's target is read from.
    /// Outside `Ctx::op` the emitter asks for operand 0's kind right before the target.
    asked: Cell<u32>,
}

impl Instruction {
    pub fn new(body: &Insn, ip: u64) -> Instruction {
        Instruction { body: *body, ip, asked: Cell::new(0) }
    }
    pub fn ip(&self) -> u64 {
        self.ip
    }
    pub fn mnemonic(&self) -> Mnemonic {
        Mnemonic(self.body.mnemonic, self.body.name)
    }
    pub fn condition_code(&self) -> ConditionCode {
        ConditionCode::new(self.body.condition)
    }
    pub fn op_count(&self) -> u32 {
        self.body.count as u32
    }
    pub fn op_kind(&self, i: u32) -> OpKind {
        self.asked.set(i);
        KINDS[self.body.operands[i as usize].kind as usize]
    }
    pub fn op0_kind(&self) -> OpKind {
        self.op_kind(0)
    }
    pub fn op_register(&self, i: u32) -> Register {
        let o = &self.body.operands[i as usize];
        Register(if o.kind == 0 { o.register } else { 0 })
    }
    pub fn immediate(&self, i: u32) -> u64 {
        self.body.operands[i as usize].number
    }
    pub fn near_branch_target(&self) -> u64 {
        self.body.operands[self.asked.get() as usize].number
    }
    pub fn memory_segment(&self) -> Register {
        Register(self.body.segment)
    }
    pub fn memory_base(&self) -> Register {
        Register(self.body.base)
    }
    pub fn memory_index(&self) -> Register {
        Register(self.body.index)
    }
    pub fn memory_index_scale(&self) -> u32 {
        self.body.scale as u32
    }
    pub fn memory_size(&self) -> MemorySize {
        MemorySize(self.body.size)
    }
    pub fn memory_displacement64(&self) -> u64 {
        self.body.memory
    }
    pub fn ip_rel_memory_address(&self) -> u64 {
        self.body.memory
    }
    pub fn is_ip_rel_memory_operand(&self) -> bool {
        matches!(self.memory_base(), Register::RIP | Register::EIP)
    }
}
