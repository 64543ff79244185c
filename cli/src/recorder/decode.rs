//! One instruction as a record has it, by Capstone.

use capstone::arch::x86::{ArchMode, X86InsnDetail, X86OpMem, X86OperandType};
use capstone::prelude::*;

use super::model::{kind, mnemonic as m, register as r, Insn, Operand};

const CONDITIONS: [&str; 16] = ["o", "no", "b", "ae", "e", "ne", "be", "a", "s", "ns", "p", "np", "l", "ge", "le", "g"];
/// From number 1; setcc and cmovcc have names of their own.
const MNEMONICS: [&str; 45] = [
    "mov", "movzx", "movsx", "movsxd", "lea", "xor", "and", "or", "add", "sub", "shl", "shr", "sar", "rol", "ror", "inc", "dec",
    "neg", "not", "imul", "push", "pop", "call", "ret", "jmp", "", "", "cmpxchg", "xchg", "rdtsc", "cpuid", "cdq", "cqo", "cdqe",
    "cwde", "ud2", "hlt", "cmp", "test", "bt", "leave", "nop", "int3", "endbr64", "endbr32",
];
/// Capstone's spellings that differ from the record's.
const SPELLINGS: [(&str, &str); 10] = [
    ("movabs", "mov"),
    ("ljmp", "jmp"),
    ("lcall", "call"),
    ("retfq", "retf"),
    ("pushal", "pushad"),
    ("popal", "popad"),
    ("pushaw", "pusha"),
    ("popaw", "popa"),
    ("sysretq", "sysret"),
    ("sal", "shl"),
];
/// No instruction is longer.
const LONGEST: usize = 15;
/// Capstone has fewer registers than this.
const REGISTERS: u16 = 512;

/// What a register is to a record.
#[derive(Clone, Debug)]
enum Known {
    Number(u8),
    /// By its name.
    Unrecordable(String),
}

pub struct Decoder {
    capstone: Capstone,
    bits: u16,
    registers: Vec<Known>,
}

/// A decoded instruction, and why it cannot be recorded if it cannot.
pub struct Decoded {
    pub insn: Insn,
    pub problem: Option<String>,
}

impl Decoder {
    pub fn new(bits: u16) -> Result<Decoder, String> {
        let mode = if bits == 64 { ArchMode::Mode64 } else { ArchMode::Mode32 };
        let built = Capstone::new().x86().mode(mode).detail(true).build();
        let capstone = built.map_err(|e| format!("the decoder does not start: {e}"))?;
        let registers = (0..REGISTERS).map(|id| known(capstone.reg_name(RegId(id)))).collect();
        Ok(Decoder { capstone, bits, registers })
    }

    /// The instruction that the bytes begin with; none if they do not decode.
    pub fn decode(&self, bytes: &[u8], address: u64) -> Option<Decoded> {
        let bytes = &bytes[..bytes.len().min(LONGEST)];
        let insns = self.capstone.disasm_count(bytes, address, 1).ok()?;
        let raw = insns.first()?;
        let detail = self.capstone.insn_detail(raw).ok()?;
        let arch = detail.arch_detail();
        let x86 = arch.x86()?;
        let word = spelling(raw.mnemonic()?, raw.bytes());
        if is_misread(word, x86, self.bits) {
            return None;
        }
        let mut out = Building { decoder: self, insn: empty(address, raw.len() as u64), word, problem: None };
        out.put_name();
        if raw.len() > 0 && !word.starts_with("endbr") {
            out.put_operands(x86);
        }
        Some(Decoded { insn: out.insn, problem: out.problem })
    }
}

/// Near branches of which Capstone gives another target, or another name, than the processor goes by. No compiler makes them.
fn is_misread(word: &str, detail: &X86InsnDetail, bits: u16) -> bool {
    let first = detail.opcode()[0];
    let long = matches!(first, 0x70..=0x7f | 0xe8 | 0xe9 | 0xeb) || first == 0x0f && matches!(detail.opcode()[1], 0x80..=0x8f);
    let near = long || matches!(first, 0xe0..=0xe3);
    let [_, _, data, address] = *detail.prefix();
    near && (data == 0x66 || address == 0x67 && (long && bits == 32 || word == "jrcxz"))
}

fn empty(address: u64, length: u64) -> Insn {
    Insn {
        address,
        length,
        mnemonic: 0,
        condition: 0,
        count: 0,
        skip: false,
        segment: 0,
        base: 0,
        index: 0,
        scale: 1,
        size: 0,
        memory: 0,
        operands: [Operand::default(); 5],
        name: [0; 24],
    }
}

/// The record's spelling, without prefixes such as rep and lock, which a record does not hold.
fn spelling<'a>(mnemonic: &'a str, bytes: &[u8]) -> &'a str {
    match bytes {
        [0xf3, 0x0f, 0x1e, 0xfa] => return "endbr64",
        [0xf3, 0x0f, 0x1e, 0xfb] => return "endbr32",
        _ => {}
    }
    let word = mnemonic.split(' ').rfind(|w| !w.is_empty()).unwrap_or("");
    SPELLINGS.iter().find(|(from, _)| *from == word).map_or(word, |(_, to)| to)
}

fn known(name: Option<String>) -> Known {
    let name = name.unwrap_or_default();
    match number(&name) {
        Some(n) => Known::Number(n),
        None => Known::Unrecordable(name),
    }
}

/// A register's number in a record; `eiz` and `riz` say that there is no index.
fn number(name: &str) -> Option<u8> {
    const WORDS: [&str; 8] = ["ax", "cx", "dx", "bx", "sp", "bp", "si", "di"];
    const LOW: [&str; 8] = ["al", "cl", "dl", "bl", "spl", "bpl", "sil", "dil"];
    let at = |list: &[&str], name: &str| list.iter().position(|w| *w == name).map(|n| n as u8);
    if matches!(name, "eiz" | "riz") {
        return Some(0);
    }
    let numbered = |prefix: &str, suffix: &str, from: u8| -> Option<u8> {
        let n = name.strip_prefix(prefix)?.strip_suffix(suffix)?.parse().ok()?;
        (from..16).contains(&n).then_some(n)
    };
    at(&LOW, name)
        .or_else(|| numbered("r", "b", 8))
        .map(|n| 16 + n)
        .or_else(|| at(&["ah", "ch", "dh", "bh"], name).map(|n| 32 + n))
        .or_else(|| at(&WORDS, name).or_else(|| numbered("r", "w", 8)).map(|n| 48 + n))
        .or_else(|| name.strip_prefix('e').and_then(|w| at(&WORDS, w)).or_else(|| numbered("r", "d", 8)).map(|n| 64 + n))
        .or_else(|| name.strip_prefix('r').and_then(|w| at(&WORDS, w)).or_else(|| numbered("r", "", 8)).map(|n| 80 + n))
        .or_else(|| at(&["eip", "rip"], name).map(|n| 96 + n))
        .or_else(|| at(&["es", "cs", "ss", "ds", "fs", "gs"], name).map(|n| 112 + n))
        .or_else(|| numbered("xmm", "", 0).map(|n| 128 + n))
        .or_else(|| numbered("ymm", "", 0).map(|n| 144 + n))
}

struct Building<'a> {
    decoder: &'a Decoder,
    insn: Insn,
    word: &'a str,
    problem: Option<String>,
}

impl Building<'_> {
    fn refuse(&mut self, why: String) {
        self.problem.get_or_insert(why);
    }

    fn put_name(&mut self) {
        let condition = |prefix: &str| -> Option<u8> {
            let word = self.word.strip_prefix(prefix)?;
            CONDITIONS.iter().position(|c| *c == word).map(|n| n as u8 + 1)
        };
        if let Some(n) = MNEMONICS.iter().position(|w| *w == self.word && !w.is_empty()) {
            self.insn.mnemonic = n as u8 + 1;
        } else if let Some(c) = condition("set") {
            (self.insn.mnemonic, self.insn.condition) = (m::SETCC, c);
        } else if let Some(c) = condition("cmov") {
            (self.insn.mnemonic, self.insn.condition) = (m::CMOVCC, c);
        } else {
            self.insn.condition = condition("j").unwrap_or(0);
            self.put_other_name();
        }
    }

    fn put_other_name(&mut self) {
        let word = self.word.as_bytes();
        let fits = (1..=self.insn.name.len()).contains(&word.len());
        if !fits || !word.iter().all(|b| matches!(b, b'a'..=b'z' | b'0'..=b'9' | b'_')) {
            return self.refuse(format!("an instruction that a record has no name for: {}", self.word));
        }
        self.insn.name[..word.len()].copy_from_slice(word);
    }

    fn put_operands(&mut self, detail: &X86InsnDetail) {
        self.put_named_operands(detail);
        let first = detail.opcode()[0];
        match (self.word, first, self.insn.count) {
            // A far pointer is one operand.
            ("jmp" | "call", 0x9a | 0xea, 2) => {
                self.insn.operands[1] = Operand::default();
                self.insn.count = 1;
            }
            ("rcl", 0xd0 | 0xd1, 1) => {
                self.insn.operands[1] = Operand { kind: kind::IMM8, register: 0, number: 1 };
                self.insn.count = 2;
            }
            // The prefix 66 does not count beside REX.W.
            ("in" | "out", _, _) if detail.rex() & 8 != 0 => self.widen_accumulator(),
            _ => {}
        }
    }

    fn widen_accumulator(&mut self) {
        let short = |o: &&mut Operand| o.kind == kind::REGISTER && o.register == r::AX;
        self.insn.operands.iter_mut().filter(short).for_each(|o| o.register = r::EAX);
    }

    fn put_named_operands(&mut self, detail: &X86InsnDetail) {
        let string = is_string_operation(self.word, detail.opcode()[0]);
        let width = detail.operands().next().map_or(0, |o| o.size);
        for operand in detail.operands() {
            let at = usize::from(self.insn.count);
            if at == 5 {
                return self.refuse(format!("more than five operands: {}", self.word));
            }
            let memory = (0..at).any(|i| self.insn.is_memory(i));
            self.insn.operands[at] = match operand.op_type {
                X86OperandType::Reg(id) => Operand { kind: kind::REGISTER, register: self.register(id), number: 0 },
                X86OperandType::Imm(n) => self.immediate(detail, n, width),
                X86OperandType::Mem(_) if string || memory => self.implied(operand.size),
                X86OperandType::Mem(mem) => self.memory(&mem, detail, operand.size),
                X86OperandType::Invalid => Operand { kind: kind::OTHER, ..Operand::default() },
            };
            self.insn.count += 1;
        }
    }

    fn register(&mut self, id: RegId) -> u8 {
        match self.decoder.registers.get(usize::from(id.0)) {
            _ if id.0 == 0 => 0,
            Some(Known::Number(n)) => self.existing(*n),
            Some(Known::Unrecordable(name)) => {
                let why = format!("a register that a record has no number for: {name}");
                self.refuse(why);
                0
            }
            None => {
                self.refuse("an unknown register".to_string());
                0
            }
        }
    }

    /// With 32 bits there are eight registers of a class; a vector's number in an immediate has a bit more, which does not count.
    fn existing(&self, register: u8) -> u8 {
        match register >> 4 {
            8 | 9 if self.decoder.bits == 32 => register & 0xf7,
            _ => register,
        }
    }

    /// Memory that a string operation names by itself.
    fn implied(&mut self, size: u8) -> Operand {
        self.insn.size = size.into();
        Operand { kind: kind::OTHER, ..Operand::default() }
    }

    fn memory(&mut self, mem: &X86OpMem, detail: &X86InsnDetail, size: u8) -> Operand {
        self.insn.segment = self.register(mem.segment());
        self.insn.base = self.register(mem.base());
        self.insn.index = self.register(mem.index());
        if self.insn.index != 0 {
            self.insn.scale = u8::try_from(mem.scale()).ok().filter(|s| [1, 2, 4, 8].contains(s)).unwrap_or(1);
        }
        self.insn.size = self.size(detail, size);
        let disp = mem.disp() as u64;
        self.insn.memory = match self.insn.base {
            r::RIP => self.insn.end().wrapping_add(disp),
            r::EIP => self.insn.end().wrapping_add(disp) & 0xffff_ffff,
            // An address by itself; with a base or an index it is a distance, with its sign.
            0 if self.decoder.bits == 32 && self.insn.index == 0 => disp & address_mask(detail),
            _ => disp,
        };
        Operand { kind: kind::MEMORY, ..Operand::default() }
    }

    /// Bytes of memory: lea reads none, and of these Capstone says another number.
    fn size(&self, detail: &X86InsnDetail, said: u8) -> u16 {
        let (short, wide) = (detail.prefix()[2] == 0x66, detail.rex() & 8 != 0);
        let far = detail.opcode()[0] == 0xff && matches!(detail.modrm() >> 3 & 7, 3 | 5);
        match self.word {
            "lea" => 0,
            "comisd" | "ucomisd" | "vcomisd" | "vucomisd" => 8,
            "comiss" | "ucomiss" | "vcomiss" | "vucomiss" => 4,
            "fxsave" | "fxrstor" | "fxsave64" | "fxrstor64" => 512,
            "fnsave" | "frstor" => if_short(short, 94, 108),
            "fnstenv" | "fldenv" => if_short(short, 14, 28),
            "rstorssp" | "clrssbsy" => 8,
            "bsf" | "bsr" if wide => 8,
            "jmp" | "call" if far => far_size(short, wide),
            "les" | "lds" | "lss" | "lfs" | "lgs" => far_size(short, wide),
            _ => said.into(),
        }
    }

    fn immediate(&mut self, detail: &X86InsnDetail, n: i64, width: u8) -> Operand {
        let kind = self.immediate_kind(detail, width);
        let number = match kind {
            kind::NEAR if self.decoder.bits == 32 => n as u64 & 0xffff_ffff,
            kind::OTHER => 0,
            kind::IMM8 => n as u8 as u64,
            kind::IMM16 => n as u16 as u64,
            kind::IMM32 => n as u32 as u64,
            kind::IMM8TO16 | kind::IMM8TO32 | kind::IMM8TO64 => n as i8 as i64 as u64,
            kind::IMM32TO64 => n as i32 as i64 as u64,
            _ => n as u64,
        };
        Operand { kind, register: 0, number }
    }

    /// By the opcode: which immediates are bytes that are extended, and which have the operand's width.
    fn immediate_kind(&self, detail: &X86InsnDetail, width: u8) -> u8 {
        let first = detail.opcode()[0];
        // REX.W takes precedence.
        let short = detail.prefix()[2] == 0x66 && detail.rex() & 8 == 0;
        let near = self.insn.condition != 0 && self.insn.mnemonic == 0 || matches!(self.insn.mnemonic, m::CALL | m::JMP);
        match (self.word, first) {
            (_, 0x9a | 0xea) if near => kind::OTHER,
            ("loop" | "loope" | "loopne" | "jcxz" | "jecxz" | "jrcxz" | "xbegin", _) => kind::NEAR,
            _ if near => kind::NEAR,
            ("ret" | "retf", _) => kind::IMM16,
            ("enter", _) if self.insn.count == 0 => kind::IMM16,
            ("push", 0x6a) => extended(self.pushed(short)),
            ("push", _) => whole(self.pushed(short)),
            ("mov", 0xb8..=0xbf) if width == 8 => kind::IMM64,
            ("imul", 0x6b) => extended(width),
            ("add" | "or" | "adc" | "sbb" | "and" | "sub" | "xor" | "cmp", 0x83) => extended(width),
            ("add" | "or" | "adc" | "sbb" | "and" | "sub" | "xor" | "cmp" | "test" | "mov" | "imul", _) => whole(width),
            _ => kind::IMM8,
        }
    }

    fn pushed(&self, short: bool) -> u8 {
        if short {
            2
        } else {
            (self.decoder.bits / 8) as u8
        }
    }
}

/// With 32 bits: the prefix 67 makes addresses of 16.
fn address_mask(detail: &X86InsnDetail) -> u64 {
    if detail.prefix()[3] == 0x67 {
        0xffff
    } else {
        0xffff_ffff
    }
}

fn if_short(short: bool, then: u16, otherwise: u16) -> u16 {
    if short {
        then
    } else {
        otherwise
    }
}

/// Bytes of a pointer with a segment.
fn far_size(short: bool, wide: bool) -> u16 {
    if wide {
        10
    } else {
        if_short(short, 4, 6)
    }
}

fn extended(width: u8) -> u8 {
    match width {
        2 => kind::IMM8TO16,
        4 => kind::IMM8TO32,
        8 => kind::IMM8TO64,
        _ => kind::IMM8,
    }
}

fn whole(width: u8) -> u8 {
    match width {
        2 => kind::IMM16,
        4 => kind::IMM32,
        8 => kind::IMM32TO64,
        _ => kind::IMM8,
    }
}

/// movs, cmps, stos, lods, scas, ins and outs, not the vector instruction movsd.
fn is_string_operation(word: &str, opcode: u8) -> bool {
    matches!(opcode, 0xa4..=0xa7 | 0xaa..=0xaf | 0x6c..=0x6f)
        && ["movs", "cmps", "stos", "lods", "scas", "ins", "outs"].iter().any(|w| word.starts_with(w))
}
