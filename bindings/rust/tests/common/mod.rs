//! What the tests share: document 01's example, and lists that are lent.
#![allow(dead_code)]

use cakirotu::{Lists, Sizes};

/// Where the example's arrays stand: block starts and marks, edge targets and kinds, instruction addresses and bodies.
pub const STARTS: usize = 24;
pub const MARKS: usize = STARTS + 3 * 8;
pub const EDGE_TARGETS: usize = MARKS + 3 * 4;
pub const EDGE_KINDS: usize = EDGE_TARGETS + 3 * 8;
pub const BODIES: usize = EDGE_KINDS + 3 + 4 * 8;
pub const BODY: usize = 92;

const EAX: u8 = 64;
const NAMED: u8 = 0;
const MOV: u8 = 1;
const RET: u8 = 24;
const TEST: u8 = 39;

/// Document 01's example: three blocks, four instructions, three edges.
pub fn example() -> Vec<u8> {
    let mut record = Vec::new();
    for field in [64u16, 1, 3, 4, 3, 0, 0, 0] {
        record.extend(field.to_le_bytes());
    }
    record.extend([0, 0, 0, 0, 0, 1, 0, 0]);
    put_u64(&mut record, &[0x1000, 0x1004, 0x1010]);
    record.extend([2, 0, 2, 0, 1, 0, 1, 0, 1, 0, 0, 1]);
    put_u64(&mut record, &[0x1010, 0x1004, 0x1010]);
    record.extend([1, 2, 3]);
    put_u64(&mut record, &[0x1000, 0x1002, 0x1004, 0x1010]);
    record.extend(body(TEST, 0, &[(0, EAX, 0), (0, EAX, 0)], b""));
    record.extend(body(NAMED, 6, &[(2, 0, 0x1010)], b"jne"));
    record.extend(body(MOV, 0, &[(0, EAX, 0), (5, 0, 5)], b""));
    record.extend(body(RET, 0, &[], b""));
    record
}

/// As many blocks as may be, each but the last with a branch to the last one: the deepest nest of if-regions.
pub fn nest() -> Vec<u8> {
    let start = |n: usize| 0x1000 + 16 * n as u64;
    let mut record = Vec::new();
    for field in [64u16, 1, 200, 200, 398, 0, 0, 0] {
        record.extend(field.to_le_bytes());
    }
    record.extend([0, 0, 0, 0, 0, 55, 0, 0]);
    (0..200).for_each(|n| put_u64(&mut record, &[start(n)]));
    (0..199).for_each(|_| record.extend([1, 0, 2, 0]));
    record.extend([1, 0, 0, 0]);
    (0..199).for_each(|n| put_u64(&mut record, &[start(199), start(n + 1)]));
    (0..199).for_each(|_| record.extend([1, 2]));
    (0..200).for_each(|n| put_u64(&mut record, &[start(n)]));
    (0..199).for_each(|_| record.extend(body(NAMED, 6, &[(2, 0, start(199))], b"jne")));
    record.extend(body(RET, 0, &[], b""));
    record
}

/// The example with an atlas entry, one name of one byte, and a span.
pub fn example_with_atlas() -> Vec<u8> {
    let mut record = example();
    record[10] = 1;
    record[12] = 1;
    record[22] = 1;
    put_u64(&mut record, &[0x2000]);
    record.extend([3, 1]);
    put_u64(&mut record, &[0x1000, 0x2fff]);
    record.push(b'x');
    record
}

pub fn put_u64(record: &mut Vec<u8>, numbers: &[u64]) {
    numbers.iter().for_each(|n| record.extend(n.to_le_bytes()));
}

pub fn body(mnemonic: u8, condition: u8, operands: &[(u8, u8, u64)], name: &[u8]) -> [u8; BODY] {
    let mut body = [0; BODY];
    body[..8].copy_from_slice(&[mnemonic, condition, operands.len() as u8, 0, 0, 0, 0, 1]);
    for (n, (kind, register, number)) in operands.iter().enumerate() {
        let at = 18 + 10 * n;
        body[at..at + 2].copy_from_slice(&[*kind, *register]);
        body[at + 2..at + 10].copy_from_slice(&number.to_le_bytes());
    }
    body[68..68 + name.len()].copy_from_slice(name);
    body
}

/// Seven lists, lent with each byte 0xee.
#[derive(Clone, Debug, PartialEq, Eq)]
pub struct Lent {
    pub text: Vec<u8>,
    pub ends: Vec<u32>,
    pub kinds: Vec<u8>,
    pub addresses: Vec<u64>,
    pub marks: Vec<u16>,
    pub places: Vec<u16>,
    pub lines: Vec<u32>,
}

impl Lent {
    /// Of these lengths, in the order of the fields.
    pub fn new(lengths: [usize; 7]) -> Lent {
        let [text, ends, kinds, addresses, marks, places, lines] = lengths;
        Lent {
            text: vec![0xee; text],
            ends: vec![0xeeee_eeee; ends],
            kinds: vec![0xee; kinds],
            addresses: vec![0xeeee_eeee_eeee_eeee; addresses],
            marks: vec![0xeeee; marks],
            places: vec![0xeeee; places],
            lines: vec![0xeeee_eeee; lines],
        }
    }

    pub fn lists(&mut self) -> Lists<'_> {
        Lists {
            text: &mut self.text,
            ends: &mut self.ends,
            kinds: &mut self.kinds,
            addresses: &mut self.addresses,
            marks: &mut self.marks,
            places: &mut self.places,
            lines: &mut self.lines,
        }
    }
}

/// The lengths of lists that fit just so.
pub fn exact(sizes: Sizes) -> [usize; 7] {
    let Sizes { text, tokens, lines } = sizes;
    [text, tokens, tokens, lines, lines, lines, lines]
}
