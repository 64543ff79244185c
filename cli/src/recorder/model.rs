//! What a record holds, before its bytes are written.

pub const BLOCKS: usize = 200;
pub const INSTRUCTIONS: usize = 500;
pub const EDGES: usize = 600;
pub const ENTRIES: usize = 200;
pub const SPANS: usize = 32;
pub const TEXT_BYTES: usize = 4000;
pub const ENTRY_BYTES: usize = 255;
/// A mark counts a block's edges in one byte.
pub const BLOCK_EDGES: usize = 255;

/// Numbers of mnemonics that are decided by.
pub mod mnemonic {
    pub const MOV: u8 = 1;
    pub const MOVZX: u8 = 2;
    pub const MOVSX: u8 = 3;
    pub const MOVSXD: u8 = 4;
    pub const LEA: u8 = 5;
    pub const XOR: u8 = 6;
    pub const AND: u8 = 7;
    pub const ADD: u8 = 9;
    pub const SUB: u8 = 10;
    pub const SHL: u8 = 11;
    pub const SHR: u8 = 12;
    pub const INC: u8 = 16;
    pub const DEC: u8 = 17;
    pub const IMUL: u8 = 20;
    pub const PUSH: u8 = 21;
    pub const POP: u8 = 22;
    pub const CALL: u8 = 23;
    pub const RET: u8 = 24;
    pub const JMP: u8 = 25;
    pub const SETCC: u8 = 26;
    pub const CMOVCC: u8 = 27;
    pub const CMPXCHG: u8 = 28;
    pub const XCHG: u8 = 29;
    pub const RDTSC: u8 = 30;
    pub const CPUID: u8 = 31;
    pub const CDQ: u8 = 32;
    pub const CQO: u8 = 33;
    pub const CDQE: u8 = 34;
    pub const CWDE: u8 = 35;
    pub const UD2: u8 = 36;
    pub const CMP: u8 = 38;
    pub const TEST: u8 = 39;
    pub const BT: u8 = 40;
    pub const LEAVE: u8 = 41;
    pub const NOP: u8 = 42;
    pub const INT3: u8 = 43;
}

/// Numbers of the unsigned conditions.
pub mod condition {
    pub const B: u8 = 3;
    pub const AE: u8 = 4;
    pub const BE: u8 = 7;
    pub const A: u8 = 8;
}

/// Operand kinds.
pub mod kind {
    pub const REGISTER: u8 = 0;
    pub const MEMORY: u8 = 1;
    pub const NEAR: u8 = 2;
    pub const IMM8: u8 = 3;
    pub const IMM16: u8 = 4;
    pub const IMM32: u8 = 5;
    pub const IMM64: u8 = 6;
    pub const IMM8TO16: u8 = 7;
    pub const IMM8TO32: u8 = 8;
    pub const IMM8TO64: u8 = 9;
    pub const IMM32TO64: u8 = 10;
    pub const OTHER: u8 = 11;
}

/// Edge kinds.
pub mod edge {
    pub const UNCOND: u8 = 0;
    pub const TRUE: u8 = 1;
    pub const FALSE: u8 = 2;
    pub const FALL: u8 = 3;
    pub const CASE: u8 = 4;
}

/// Registers by number: 16 × class + number in the class.
pub mod register {
    pub const SP: u8 = 4;
    pub const AX: u8 = 48;
    pub const EAX: u8 = 64;
    pub const EBP: u8 = 69;
    pub const RAX: u8 = 80;
    pub const RBP: u8 = 85;
    pub const R11: u8 = 91;
    pub const RIP: u8 = 97;
    pub const EIP: u8 = 96;

    /// The number among the sixteen that a general register is a part of.
    pub fn family(register: u8) -> Option<u8> {
        match register >> 4 {
            1 | 3 | 4 | 5 => Some(register & 15),
            2 => Some(register & 3),
            _ => None,
        }
    }

    /// esp or rsp.
    pub fn is_stack_pointer(register: u8) -> bool {
        matches!(register >> 4, 4 | 5) && register & 15 == SP
    }
}

#[derive(Clone, Copy, Debug, Default, PartialEq, Eq)]
pub struct Operand {
    pub kind: u8,
    pub register: u8,
    pub number: u64,
}

#[derive(Clone, Copy, Debug)]
pub struct Insn {
    pub address: u64,
    pub length: u64,
    pub mnemonic: u8,
    pub condition: u8,
    pub count: u8,
    pub skip: bool,
    pub segment: u8,
    pub base: u8,
    pub index: u8,
    pub scale: u8,
    pub size: u16,
    pub memory: u64,
    pub operands: [Operand; 5],
    pub name: [u8; 24],
}

/// Where an instruction goes on.
#[derive(Clone, Copy, Debug, PartialEq, Eq)]
pub enum Flow {
    Next,
    Call(Option<u64>),
    Branch(u64),
    /// A conditional branch whose condition a record has no number for: loop, jrcxz.
    Odd(u64),
    Jump(Option<u64>),
    Stop,
}

impl Insn {
    pub fn end(&self) -> u64 {
        self.address.wrapping_add(self.length)
    }

    pub fn name(&self) -> &[u8] {
        let n = self.name.iter().position(|b| *b == 0).unwrap_or(self.name.len());
        &self.name[..n]
    }

    /// The register of an operand, if it is one.
    pub fn register(&self, at: usize) -> Option<u8> {
        let operand = self.operands.get(at)?;
        (at < self.count.into() && operand.kind == kind::REGISTER).then_some(operand.register)
    }

    /// The number of an operand, if it is an immediate.
    pub fn immediate(&self, at: usize) -> Option<u64> {
        let operand = self.operands.get(at)?;
        (at < self.count.into() && (kind::IMM8..=kind::IMM32TO64).contains(&operand.kind)).then_some(operand.number)
    }

    pub fn is_memory(&self, at: usize) -> bool {
        at < self.count.into() && self.operands.get(at).is_some_and(|o| o.kind == kind::MEMORY)
    }

    fn near(&self) -> Option<u64> {
        (self.count > 0 && self.operands[0].kind == kind::NEAR).then_some(self.operands[0].number)
    }

    /// The address that a memory operand without registers, or by rip, comes to.
    pub fn fixed_memory(&self) -> Option<u64> {
        let fixed = matches!(self.base, 0 | register::RIP | register::EIP) && self.index == 0 && self.segment == 0;
        ((0..5).any(|at| self.is_memory(at)) && fixed).then_some(self.memory)
    }

    pub fn flow(&self) -> Flow {
        match (self.mnemonic, self.near(), self.name()) {
            (mnemonic::JMP, target, _) => Flow::Jump(target),
            (mnemonic::CALL, target, _) => Flow::Call(target),
            (mnemonic::RET | mnemonic::UD2, _, _) => Flow::Stop,
            (_, Some(target), _) if self.condition != 0 => Flow::Branch(target),
            (_, Some(target), _) => Flow::Odd(target),
            (0, _, b"retf" | b"iret" | b"iretd" | b"iretq" | b"sysret" | b"sysexit" | b"ud0" | b"ud1") => Flow::Stop,
            (0, _, b"int") if self.immediate(0) == Some(0x29) => Flow::Stop,
            _ => Flow::Next,
        }
    }
}

#[derive(Clone, Copy, Debug, PartialEq, Eq)]
pub struct Edge {
    pub to: u64,
    pub kind: u8,
}

#[derive(Clone, Debug)]
pub struct Block {
    pub start: u64,
    pub label: bool,
    pub insns: Vec<Insn>,
    pub edges: Vec<Edge>,
}

#[derive(Clone, Copy, Debug, PartialEq, Eq)]
pub enum Text {
    String = 1,
    Wide = 2,
    Name = 3,
}

#[derive(Clone, Debug)]
pub struct Entry {
    pub address: u64,
    pub kind: Text,
    pub text: Vec<u8>,
}

pub struct Record<'a> {
    pub bits: u16,
    pub frame: u8,
    pub shift: Option<i32>,
    pub blocks: &'a [Block],
    pub atlas: &'a [Entry],
    pub spans: &'a [(u64, u64)],
}
