//! The questions of a record and a range, written from documents 01 and 02 alone and apart from `record.rs`. Every question
//! is safe on any bytes: a read past the end answers 0.

/// What a call lends, as far as the questions ask about it.
struct Asked<'a> {
    bytes: &'a [u8],
    from: usize,
    to: usize,
}

type Question = fn(&Asked) -> bool;

/// In the order of asking, each with its number: #108 has 15 asked "directly after 8 and before 9".
const QUESTIONS: [(u8, Question); 12] = [
    (1, has_header),
    (2, has_known_settings),
    (3, is_within_limits),
    (4, has_announced_length),
    (5, has_counts_that_add_up),
    (6, has_different_starts),
    (7, has_known_edge_kinds),
    (8, has_known_instructions),
    (15, has_edges_of_branches),
    (9, has_good_atlas),
    (10, has_good_spans),
    (11, has_good_range),
];

/// The numbers of the questions, in the order of asking.
pub fn numbers() -> [u8; 12] {
    QUESTIONS.map(|(number, _)| number)
}

/// The number of the first question that gets a no; 0 if all get a yes.
pub fn first_no(bytes: &[u8], from: usize, to: usize) -> u8 {
    Asked { bytes, from, to }.first_no(&QUESTIONS)
}

/// The same of the first four questions alone, which are of the header and the length.
pub fn first_no_of_four(bytes: &[u8]) -> u8 {
    Asked { bytes, from: 0, to: 0 }.first_no(&QUESTIONS[..4])
}

/// The numbers of all questions that get a no. Past a no to question 4 this is only a rough measure.
pub fn every_no(bytes: &[u8], from: usize, to: usize) -> Vec<u8> {
    let asked = Asked { bytes, from, to };
    QUESTIONS.iter().filter(|(_, yes)| !yes(&asked)).map(|(number, _)| *number).collect()
}

impl Asked<'_> {
    fn first_no(&self, questions: &[(u8, Question)]) -> u8 {
        questions.iter().find(|(_, yes)| !yes(self)).map_or(0, |(number, _)| *number)
    }

    fn u8(&self, at: usize) -> u8 {
        self.bytes.get(at).copied().unwrap_or(0)
    }
    fn u16(&self, at: usize) -> u16 {
        u16::from(self.u8(at)) | u16::from(self.u8(at + 1)) << 8
    }
    fn u64(&self, at: usize) -> u64 {
        (0..8).fold(0, |n, k| n | u64::from(self.u8(at + k)) << (8 * k))
    }

    // The sizes of the header.
    fn blocks(&self) -> usize {
        self.u16(4).into()
    }
    fn insns(&self) -> usize {
        self.u16(6).into()
    }
    fn edges(&self) -> usize {
        self.u16(8).into()
    }
    fn atlas(&self) -> usize {
        self.u16(10).into()
    }
    fn spans(&self) -> usize {
        self.u16(12).into()
    }
    fn text(&self) -> usize {
        self.u16(22).into()
    }

    // Where each array begins: behind the one before.
    fn marks_at(&self) -> usize {
        24 + self.blocks() * 8
    }
    fn targets_at(&self) -> usize {
        self.marks_at() + self.blocks() * 4
    }
    fn edge_kinds_at(&self) -> usize {
        self.targets_at() + self.edges() * 8
    }
    fn addresses_at(&self) -> usize {
        self.edge_kinds_at() + self.edges()
    }
    fn bodies_at(&self) -> usize {
        self.addresses_at() + self.insns() * 8
    }
    fn atlas_at(&self) -> usize {
        self.bodies_at() + self.insns() * 92
    }
    fn atlas_pairs_at(&self) -> usize {
        self.atlas_at() + self.atlas() * 8
    }
    fn spans_at(&self) -> usize {
        self.atlas_pairs_at() + self.atlas() * 2
    }
    fn text_at(&self) -> usize {
        self.spans_at() + self.spans() * 16
    }
    fn end(&self) -> usize {
        self.text_at() + self.text()
    }
}

// 1. At least 24 bytes?
fn has_header(q: &Asked) -> bool {
    q.bytes.len() >= 24
}

// 2. Bits, convention and shift mark as listed, and shift 0 if not given?
fn has_known_settings(q: &Asked) -> bool {
    let bits = matches!(q.u16(0), 16 | 32 | 64);
    let convention = q.u16(2) <= 1;
    let mark = q.u8(20);
    let shift_is_zero = (16..20).all(|at| q.u8(at) == 0);
    bits && convention && mark <= 1 && (mark == 1 || shift_is_zero)
}

// 3. B <= 200, I <= 500, E <= 600, A <= 200, S <= 32, T <= 4,000, indent <= 55?
fn is_within_limits(q: &Asked) -> bool {
    q.blocks() <= 200
        && q.insns() <= 500
        && q.edges() <= 600
        && q.atlas() <= 200
        && q.spans() <= 32
        && q.text() <= 4000
        && q.u8(21) <= 55
}

// 4. Length exactly what the sizes say?
fn has_announced_length(q: &Asked) -> bool {
    q.bytes.len() == q.end()
}

// 5. Instruction counts total I, edge counts E, label marks 0 or 1?
fn has_counts_that_add_up(q: &Asked) -> bool {
    let marks = || (0..q.blocks()).map(|n| q.marks_at() + 4 * n);
    let insns: usize = marks().map(|at| usize::from(q.u16(at))).sum();
    let edges: usize = marks().map(|at| usize::from(q.u8(at + 2))).sum();
    insns == q.insns() && edges == q.edges() && marks().all(|at| q.u8(at + 3) <= 1)
}

// 6. Block starts all different?
fn has_different_starts(q: &Asked) -> bool {
    let mut starts: Vec<u64> = (0..q.blocks()).map(|n| q.u64(24 + 8 * n)).collect();
    starts.sort_unstable();
    starts.windows(2).all(|w| w[0] != w[1])
}

// 7. Edge kinds 0 to 4?
fn has_known_edge_kinds(q: &Asked) -> bool {
    (0..q.edges()).all(|n| q.u8(q.edge_kinds_at() + n) <= 4)
}

// 8. Mnemonics, conditions, counts, skip marks, registers, scales, kinds and names as listed?
fn has_known_instructions(q: &Asked) -> bool {
    is_register(q.u16(14)) && (0..q.insns()).all(|n| is_known_instruction(q, q.bodies_at() + 92 * n))
}

fn is_known_instruction(q: &Asked, body: usize) -> bool {
    let register = |at: usize| is_register(q.u8(body + at).into());
    let mnemonic = q.u8(body);
    mnemonic <= 45
        && condition_fits(mnemonic, q.u8(body + 1))
        && q.u8(body + 2) <= 5
        && q.u8(body + 3) <= 1
        && register(4)
        && register(5)
        && register(6)
        && matches!(q.u8(body + 7), 1 | 2 | 4 | 8)
        && (0..5).all(|k| q.u8(body + 18 + 10 * k) <= 11 && register(19 + 10 * k))
        && name_fits(mnemonic, q, body + 68)
}

/// Conditions 0 to 16, non-zero for setcc and cmovcc, zero for other mnemonics above 0.
fn condition_fits(mnemonic: u8, condition: u8) -> bool {
    match mnemonic {
        0 => condition <= 16,
        26 | 27 => (1..=16).contains(&condition),
        _ => condition == 0,
    }
}

/// 1 to 24 of a-z 0-9 `_`, then zeros, for mnemonic 0; all zeros otherwise.
fn name_fits(mnemonic: u8, q: &Asked, at: usize) -> bool {
    let byte = |k: usize| q.u8(at + k);
    let length = (0..24).take_while(|&k| matches!(byte(k), b'a'..=b'z' | b'0'..=b'9' | b'_')).count();
    let rest_is_zero = (length..24).all(|k| byte(k) == 0);
    rest_is_zero && (length > 0) == (mnemonic == 0)
}

/// 0, or class times 16 plus index.
fn is_register(number: u16) -> bool {
    let index = number % 16;
    match number / 16 {
        0 => index == 0,
        1 | 3 | 4 | 5 | 8 | 9 => true,
        2 => index < 4,
        6 => index < 2,
        7 => index < 6,
        _ => false,
    }
}

// 15. "A block whose last instruction has a condition and, as first operand, a near branch must have exactly one True edge, to
//     that branch's target; any other block must have none."
fn has_edges_of_branches(q: &Asked) -> bool {
    let (mut insns, mut edges) = (0, 0);
    (0..q.blocks()).map(|n| q.marks_at() + 4 * n).all(|mark| {
        let of_block = edges..edges + usize::from(q.u8(mark + 2));
        let is_empty = q.u16(mark) == 0;
        insns += usize::from(q.u16(mark));
        edges = of_block.end;
        let target = if is_empty { None } else { branch_target(q, q.bodies_at() + 92 * (insns - 1)) };
        let taken = of_block.filter(|n| q.u8(q.edge_kinds_at() + n) == 1).map(|n| q.u64(q.targets_at() + 8 * n));
        taken.eq(target)
    })
}

/// Where the instruction branches to, if it has a condition and a near branch in its first operand's slot.
fn branch_target(q: &Asked, body: usize) -> Option<u64> {
    (q.u8(body + 1) != 0 && q.u8(body + 18) == 2).then(|| q.u64(body + 20))
}

// 9. Atlas addresses strictly rising, kinds 1 to 3, lengths total T, string bytes below 0x80,
//    names of 1 or more bytes 0x20 to 0x7e?
fn has_good_atlas(q: &Asked) -> bool {
    let address = |n: usize| q.u64(q.atlas_at() + 8 * n);
    let rising = (1..q.atlas()).all(|n| address(n - 1) < address(n));
    let mut at = q.text_at();
    let mut good = true;
    for n in 0..q.atlas() {
        let pair = q.atlas_pairs_at() + 2 * n;
        let (kind, length) = (q.u8(pair), usize::from(q.u8(pair + 1)));
        let mut text = (at..at + length).map(|k| q.u8(k));
        good = good
            && match kind {
                1 | 2 => text.all(|b| b < 0x80),
                3 => length >= 1 && text.all(|b| (0x20..=0x7e).contains(&b)),
                _ => false,
            };
        at += length;
    }
    rising && good && at == q.end()
}

// 10. Each span's first <= last?
fn has_good_spans(q: &Asked) -> bool {
    (0..q.spans()).map(|n| q.spans_at() + 16 * n).all(|at| q.u64(at) <= q.u64(at + 8))
}

// 11. from <= to <= B?
fn has_good_range(q: &Asked) -> bool {
    q.from <= q.to && q.to <= q.blocks()
}
