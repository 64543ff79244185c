//! What registers and memory hold along a path of instructions, as far as a jump's targets are made of it.

use std::collections::BTreeMap;

use super::model::{condition, mnemonic as m, register as r, Insn};
use super::pe::Image;

/// Numbers of a range, and entries of a table, that are read at most.
pub const ENTRIES: u64 = 1024;
/// Tables that are read through one another at most: one of bytes, one of addresses.
const LEVELS: usize = 3;
/// Registers that a call leaves as they are: rbx, rsp, rbp, rsi, rdi, r12 to r15.
pub const KEPT: [usize; 9] = [3, 4, 5, 6, 7, 12, 13, 14, 15];
/// rsp and rbp.
const STACK: [usize; 2] = [4, 5];
/// Bytes that one instruction writes at most.
const WIDEST: u64 = 64;

/// base + scale × what the root stands for; with scale 0 a number.
#[derive(Clone, Copy, Debug, PartialEq, Eq, PartialOrd, Ord)]
pub struct Value {
    base: u64,
    scale: u64,
    root: usize,
}

impl Value {
    pub fn number(base: u64) -> Value {
        Value { base, scale: 0, root: 0 }
    }

    /// What a register holds at a path's start.
    pub fn register(family: usize) -> Value {
        Value { base: 0, scale: 1, root: family }
    }

    /// What a register holds at the routine's start.
    pub fn argument(family: usize) -> Value {
        Value { base: 0, scale: 1, root: 16 + family }
    }

    fn plus(self, n: u64) -> Value {
        Value { base: self.base.wrapping_add(n), ..self }
    }

    fn times(self, n: u64) -> Value {
        Value { base: self.base.wrapping_mul(n), scale: self.scale.wrapping_mul(n), root: self.root }
    }

    /// The sum, if it has one root at most.
    fn sum(self, other: Value) -> Option<Value> {
        match (self.scale, other.scale) {
            (_, 0) => Some(self.plus(other.base)),
            (0, _) => Some(other.plus(self.base)),
            _ => None,
        }
    }
}

/// What a value is made of.
#[derive(Clone, Copy, Debug)]
enum Root {
    Unknown,
    /// Of more than one root; one may be known where the path begins earlier.
    Mixed,
    Shifted {
        of: Value,
        right: u64,
    },
    /// Read from memory, of so many bytes.
    Loaded {
        from: Value,
        width: u64,
        signed: bool,
    },
}

/// What a path says of an indirect jump.
pub enum Outcome {
    Targets(Vec<u64>),
    /// Of the table of addresses that begins here; more of the path may say its bound.
    Unbounded(u64),
    /// More of the path may say it.
    Open,
    /// It does not jump through a table.
    NoTable,
}

/// The registers, memory and known ranges at one place of a path.
pub struct Values<'a> {
    image: &'a Image<'a>,
    registers: [Value; 16],
    /// What was read or written, by its address.
    memory: BTreeMap<Value, Value>,
    roots: Vec<Root>,
    /// By root: root + first number lies from 0 to the second.
    ranges: BTreeMap<usize, (u64, u64)>,
    /// What was masked, by what it was before and the mask.
    masked: BTreeMap<(Value, u64), Value>,
    /// What the last comparison compared with which number.
    compared: Option<(Value, u64)>,
}

impl<'a> Values<'a> {
    /// At a path's start only these registers are known.
    pub fn new(image: &'a Image<'a>, known: &[Option<Value>; 16]) -> Values<'a> {
        Values {
            image,
            registers: std::array::from_fn(|n| known[n].unwrap_or(Value::register(n))),
            memory: BTreeMap::new(),
            roots: vec![Root::Unknown; 32],
            ranges: BTreeMap::new(),
            masked: BTreeMap::new(),
            compared: None,
        }
    }

    fn made(&mut self, root: Root) -> Value {
        self.roots.push(root);
        Value { base: 0, scale: 1, root: self.roots.len() - 1 }
    }

    fn unknown(&mut self) -> Value {
        self.made(Root::Unknown)
    }

    fn register(&mut self, register: u8) -> Value {
        match r::family(register) {
            Some(family) if register >> 4 != 2 => self.registers[usize::from(family)],
            _ => self.unknown(),
        }
    }

    fn write(&mut self, register: u8, value: Value) {
        if let Some(family) = r::family(register) {
            self.registers[usize::from(family)] = value;
        }
    }

    /// The address of the memory operand.
    fn address(&mut self, insn: &Insn) -> Value {
        if insn.segment != 0 {
            return self.unknown();
        }
        let base = match insn.base {
            0 | r::RIP | r::EIP => Value::number(0),
            base => self.register(base),
        };
        let index = match insn.index {
            0 => Value::number(0),
            index => self.register(index).times(insn.scale.into()),
        };
        let sum = base.sum(index);
        sum.map_or_else(|| self.made(Root::Mixed), |sum| sum.plus(insn.memory))
    }

    /// What the memory operand holds: the same until memory is written.
    fn loaded(&mut self, insn: &Insn) -> Value {
        let from = self.address(insn);
        if let Some(value) = self.memory.get(&from) {
            return *value;
        }
        let signed = matches!(insn.mnemonic, m::MOVSX | m::MOVSXD);
        let value = self.made(Root::Loaded { from, width: insn.size.into(), signed });
        self.memory.insert(from, value);
        value
    }

    fn operand(&mut self, insn: &Insn, at: usize) -> Value {
        match (insn.register(at), insn.immediate(at)) {
            (Some(register), _) => self.register(register),
            (_, Some(number)) => Value::number(number),
            _ if insn.is_memory(at) => self.loaded(insn),
            _ => self.unknown(),
        }
    }

    /// Goes over an instruction of the path, which goes on at an address.
    pub fn step(&mut self, insn: &Insn, next: u64) {
        match insn.mnemonic {
            m::CMP => self.compare(insn),
            m::CALL => self.call(),
            m::PUSH | m::NOP | m::JMP | m::SETCC => {}
            0 if insn.condition != 0 => self.branch(insn, next),
            _ => self.change(insn),
        }
    }

    fn compare(&mut self, insn: &Insn) {
        let (value, with) = (self.operand(insn, 0), self.operand(insn, 1));
        self.compared = (with.scale == 0).then_some((value, with.base));
    }

    /// Memory outside of the stack and the registers that a callee may change are not known behind it.
    fn call(&mut self) {
        self.forget((0..16).filter(|n| !KEPT.contains(n)));
        self.memory.retain(|address, _| address.scale == 1 && STACK.contains(&address.root));
        self.compared = None;
    }

    fn forget(&mut self, families: impl Iterator<Item = usize>) {
        for family in families {
            self.registers[family] = self.unknown();
        }
    }

    /// What an unsigned comparison says of a value on this path.
    fn branch(&mut self, insn: &Insn, next: u64) {
        let Some((value, n)) = self.compared.filter(|(value, _)| value.scale == 1) else { return };
        let most = match (insn.condition, next != insn.end()) {
            (condition::A, false) | (condition::BE, true) => Some(n),
            (condition::AE, false) | (condition::B, true) => n.checked_sub(1),
            _ => None,
        };
        let known = self.ranges.get(&value.root).map_or(u64::MAX, |(_, most)| *most);
        if let Some(most) = most.filter(|most| *most < known) {
            self.ranges.insert(value.root, (value.base, most));
        }
    }

    /// Writes the first operand, and what else the instruction changes.
    fn change(&mut self, insn: &Insn) {
        let value = self.result(insn);
        if sets_flags(insn) {
            let left = self.operand(insn, 0);
            self.compared = insn.immediate(1).filter(|_| insn.mnemonic == m::SUB).map(|n| (left, n));
        }
        match insn.register(0) {
            Some(register) => self.write(register, value),
            None if insn.is_memory(0) && !matches!(insn.mnemonic, m::TEST | m::BT) => self.store(insn, value),
            None => {}
        }
        self.change_implied(insn);
    }

    /// What lies near is not known any more. What has another root stays: a compiler reads an index again only if nothing changed it.
    fn store(&mut self, insn: &Insn, value: Value) {
        let to = self.address(insn);
        let near = |a: &Value| a.base.wrapping_sub(to.base).wrapping_add(WIDEST) < 2 * WIDEST;
        self.memory.retain(|a, _| (a.root, a.scale) != (to.root, to.scale) || !near(a));
        self.memory.insert(to, value);
    }

    /// What the first operand becomes.
    fn result(&mut self, insn: &Insn) -> Value {
        let number = insn.immediate(1);
        let same = insn.register(0).is_some() && insn.register(0) == insn.register(1);
        let known = match (insn.mnemonic, number) {
            (m::MOV | m::MOVZX, _) => Some(self.operand(insn, 1)),
            (m::MOVSX | m::MOVSXD, _) => Some(self.operand(insn, 1)).map(|v| self.extended(v)),
            (m::LEA, _) => Some(self.address(insn)),
            (m::XOR, _) if same => Some(Value::number(0)),
            (m::ADD, _) => self.operand(insn, 0).sum(self.operand(insn, 1)).or_else(|| Some(self.made(Root::Mixed))),
            (m::SUB, Some(n)) => Some(self.operand(insn, 0).plus(n.wrapping_neg())),
            (m::INC, _) => Some(self.operand(insn, 0).plus(1)),
            (m::DEC, _) => Some(self.operand(insn, 0).plus(u64::MAX)),
            (m::SHL, Some(n @ 0..=3)) => Some(self.operand(insn, 0).times(1 << n)),
            (m::SHR, Some(right)) => Some(self.operand(insn, 0)).map(|of| self.made(Root::Shifted { of, right })),
            (m::AND, Some(n)) => Some(self.operand(insn, 0)).map(|of| self.mask(of, n)),
            (m::TEST | m::BT, _) => Some(self.operand(insn, 0)),
            _ => None,
        };
        known.unwrap_or_else(|| self.unknown())
    }

    /// A value that lies from 0 to the mask; the same for the same.
    fn mask(&mut self, of: Value, mask: u64) -> Value {
        if let Some(value) = self.masked.get(&(of, mask)) {
            return *value;
        }
        let value = self.unknown();
        self.ranges.insert(value.root, (0, mask));
        self.masked.insert((of, mask), value);
        value
    }

    /// With the sign of what was read; of any other value the same.
    fn extended(&mut self, value: Value) -> Value {
        match self.roots[value.root] {
            Root::Loaded { from, width, .. } if value.scale == 1 && value.base == 0 && from.scale != 0 => {
                self.made(Root::Loaded { from, width, signed: true })
            }
            _ => value,
        }
    }

    /// Registers that an instruction changes without naming them first.
    fn change_implied(&mut self, insn: &Insn) {
        match (insn.mnemonic, insn.name()) {
            (m::CDQE | m::CWDE, _) => self.registers[0] = self.extended(self.registers[0]),
            (m::XCHG | m::CMPXCHG, _) => {
                self.forget(insn.register(1).and_then(r::family).into_iter().map(usize::from).chain([0]))
            }
            (m::CDQ | m::CQO, _) => self.forget([2].into_iter()),
            (m::RDTSC | m::CPUID, _) => self.forget(0..4),
            (m::IMUL, _) if insn.count == 1 => self.forget([0, 2].into_iter()),
            (0, name) if name.first().is_some_and(|b| b"mdilscox".contains(b)) => self.forget_string(name),
            _ => {}
        }
    }

    /// Multiplications and divisions change rax and rdx, string instructions rax, rcx, rsi and rdi.
    fn forget_string(&mut self, name: &[u8]) {
        let begins = |words: &[&[u8]]| words.iter().any(|w| name.starts_with(w));
        if begins(&[b"mul", b"div", b"idiv", b"xadd"]) {
            self.forget([0, 2].into_iter());
        } else if begins(&[b"movs", b"cmps", b"stos", b"lods", b"scas", b"ins", b"outs", b"loop"]) {
            self.forget([0, 1, 6, 7].into_iter());
        }
    }

    /// Where an indirect jump goes, if all entries of its table are code.
    pub fn targets(&mut self, jump: &Insn) -> Outcome {
        let value = self.operand(jump, 0);
        if value.scale != 1 || !self.may_be_table(value.root) {
            return Outcome::NoTable;
        }
        let Some(entries) = self.numbers(value.root, LEVELS) else { return self.unbounded(value) };
        let targets: Vec<u64> = entries.into_iter().map(|n| self.wrapped(value.base.wrapping_add(n))).collect();
        if targets.iter().all(|a| self.image.runs_at(*a)) {
            Outcome::Targets(targets)
        } else {
            Outcome::NoTable
        }
    }

    fn unbounded(&self, value: Value) -> Outcome {
        let word = u64::from(self.image.bits / 8);
        match self.roots[value.root] {
            Root::Loaded { from, width, .. } if value.base == 0 && width == word && from.scale == word => {
                Outcome::Unbounded(self.wrapped(from.base))
            }
            _ => Outcome::Open,
        }
    }

    /// Whether a table's entry may be jumped to: a pointer that an object holds is no table.
    fn may_be_table(&self, root: usize) -> bool {
        match self.roots[root] {
            Root::Unknown => root < 16,
            Root::Mixed => true,
            Root::Shifted { .. } => false,
            Root::Loaded { from, .. } => from.scale > 1 || from.scale == 1 && matches!(self.roots[from.root], Root::Mixed),
        }
    }

    /// What a root may stand for.
    fn numbers(&self, root: usize, levels: usize) -> Option<Vec<u64>> {
        if let Some((plus, most)) = self.ranges.get(&root) {
            return (*most < ENTRIES).then(|| (0..=*most).map(|n| n.wrapping_sub(*plus)).collect());
        }
        match self.roots[root] {
            Root::Loaded { from, width, signed } if from.scale != 0 && levels > 0 => {
                let indexes = self.numbers(from.root, levels - 1)?;
                let read = |n: &u64| self.read(from.base.wrapping_add(from.scale.wrapping_mul(*n)), width, signed);
                indexes.iter().map(read).collect()
            }
            Root::Shifted { of, right: right @ 0..=63 } if of.scale == 1 => {
                let (_, most) = self.ranges.get(&of.root).filter(|(plus, _)| *plus == of.base)?;
                (most >> right < ENTRIES).then(|| (0..=most >> right).collect())
            }
            _ => None,
        }
    }

    fn read(&self, address: u64, width: u64, signed: bool) -> Option<u64> {
        let bytes = self.image.bytes_at(self.wrapped(address))?;
        Some(match width {
            1 => u64::from(bytes[0]),
            2 => u64::from(u16::from_le_bytes(bytes.get(..2)?.try_into().ok()?)),
            4 if signed => i32::from_le_bytes(bytes.get(..4)?.try_into().ok()?) as u64,
            4 => u64::from(u32::from_le_bytes(bytes.get(..4)?.try_into().ok()?)),
            8 => u64::from_le_bytes(bytes.get(..8)?.try_into().ok()?),
            _ => return None,
        })
    }

    fn wrapped(&self, address: u64) -> u64 {
        if self.image.bits == 32 {
            address & 0xffff_ffff
        } else {
            address
        }
    }
}

/// Whether an instruction changes what a branch behind it decides by.
fn sets_flags(insn: &Insn) -> bool {
    const NAMES: [&[u8]; 20] = [
        b"adc", b"sbb", b"mul", b"div", b"idiv", b"bs", b"bt", b"lzcnt", b"tzcnt", b"popcnt", b"popf", b"sh", b"rc", b"sahf",
        b"comis", b"ucomis", b"vcomis", b"vucomis", b"cmps", b"scas",
    ];
    match insn.mnemonic {
        0 => insn.name() != b"bswap" && NAMES.iter().any(|w| insn.name().starts_with(w)),
        m::MOV | m::MOVZX | m::MOVSX | m::MOVSXD | m::LEA | m::POP | m::CMOVCC => false,
        m::XCHG | m::CDQ | m::CQO | m::CDQE | m::CWDE | m::LEAVE => false,
        _ => true,
    }
}
