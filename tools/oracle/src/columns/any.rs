//! Bytes for both directions: records of every generator, damaged ones, and bytes that only the first four questions accept.

use crate::damage::{self, Call};
use crate::gen::{self, LIMIT_A, LIMIT_B, LIMIT_E, LIMIT_I, LIMIT_INDENT, LIMIT_S, LIMIT_T};
use crate::record::{Layout, Record, HEADER};
use crate::rng::Rng;

/// What the bytes are.
const KINDS: [(&str, fn(&mut Rng) -> Vec<u8>); 8] = [
    ("accepted by all questions", accepted),
    ("damaged", damaged),
    ("any bytes behind a header", behind_header),
    ("any bytes at every limit", at_limits),
    ("one size over its limit", over_limit),
    ("another length", other_length),
    ("any bytes", any_bytes),
    ("more than a record has", long),
];

/// The kinds of so many inputs in turn: most by far are accepted by the first four questions.
const TURNS: [usize; 16] = [0, 2, 1, 0, 2, 5, 0, 2, 1, 0, 4, 2, 0, 6, 2, 0];

pub const COUNT: usize = KINDS.len();

pub fn name(kind: usize) -> &'static str {
    KINDS[kind].0
}

/// Which kind input `n` is of. The long ones are rare.
pub fn kind(n: usize) -> usize {
    match n % 256 {
        77 => 3,
        177 => 7,
        _ => TURNS[n % TURNS.len()],
    }
}

pub fn bytes(rng: &mut Rng, kind: usize) -> Vec<u8> {
    KINDS[kind].1(rng)
}

/// A generated input of the programs.
pub fn input(seed: usize) -> Vec<u8> {
    bytes(&mut Rng::new(seed as u64), kind(seed))
}

fn accepted(rng: &mut Rng) -> Vec<u8> {
    record(rng).to_bytes()
}

/// A record of every generator that there is.
fn record(rng: &mut Rng) -> Record {
    let make: fn(&mut Rng) -> Record = match rng.below(64) {
        0 => gen::at_limits,
        1 => gen::deepest,
        2 => gen::pushes,
        3 => gen::named,
        4 | 5 => gen::straight,
        6 | 7 => gen::flow_rich,
        8 => |rng| gen::repeated(rng.below(100)),
        9 => |rng| gen::around_limit(rng, rng.aside().below(7), 0),
        10 => |_| gen::small(),
        11..=20 => gen::sender,
        21..=30 => gen::followed,
        31..=40 => gen::one_block,
        _ => gen::valid,
    };
    make(rng)
}

/// Most are refused by a later question and accepted here.
fn damaged(rng: &mut Rng) -> Vec<u8> {
    let record = record(rng);
    let call = Call { to: record.blocks.len(), from: 0, bytes: record.to_bytes() };
    damage::damaged(rng, &call).bytes
}

/// A header that the first three questions accept, of small sizes or of sizes at their turns, and any bytes behind it.
fn behind_header(rng: &mut Rng) -> Vec<u8> {
    let most = if rng.percent(80) { [6, 9, 6, 4, 3, 40] } else { [LIMIT_B, LIMIT_I, LIMIT_E, LIMIT_A, LIMIT_S, LIMIT_T] };
    let mut sizes = most.map(|most| if rng.percent(25) { rng.pick(&[0, 1, most]) } else { rng.below(most + 1) });
    if rng.percent(10) {
        sizes[1] = rng.pick(&[91, 92, 93, 255, 256, 257, LIMIT_I - 1, LIMIT_I]);
    }
    of_sizes(rng, sizes)
}

fn at_limits(rng: &mut Rng) -> Vec<u8> {
    of_sizes(rng, [LIMIT_B, LIMIT_I, LIMIT_E, LIMIT_A, LIMIT_S, LIMIT_T])
}

/// As long as B, I, E, A, S and T say, and any bytes where the first four questions do not look.
fn of_sizes(rng: &mut Rng, [b, i, e, a, s, t]: [usize; 6]) -> Vec<u8> {
    let end = Layout::new(b, i, e, a, s, t).end;
    let mut bytes = filled(rng, end);
    let given = rng.below(2) as u8;
    let fields = [rng.pick(&[16, 32, 64]), rng.below(2), b, i, e, a, s];
    for (at, field) in fields.iter().enumerate() {
        bytes[2 * at..2 * at + 2].copy_from_slice(&(*field as u16).to_le_bytes());
    }
    if given == 0 {
        bytes[16..20].fill(0);
    }
    bytes[20..22].copy_from_slice(&[given, rng.range(0, LIMIT_INDENT) as u8]);
    bytes[22..HEADER].copy_from_slice(&(t as u16).to_le_bytes());
    bytes
}

/// The length still agrees: only the limit is passed.
fn over_limit(rng: &mut Rng) -> Vec<u8> {
    let which = rng.below(7);
    let over = rng.pick(&[1, 1, 2, 100]);
    gen::around_limit(rng, which, over).to_bytes()
}

/// Bytes cut off or put on, one, a body's or any number of them.
fn other_length(rng: &mut Rng) -> Vec<u8> {
    let mut bytes = if rng.percent(50) { accepted(rng) } else { behind_header(rng) };
    let by = rng.pick(&[1, 8, 92, 100, 1000]);
    let length = match rng.below(4) {
        0 => rng.below(bytes.len()),
        1 => bytes.len().saturating_sub(by),
        _ => bytes.len() + by,
    };
    bytes.resize(length, 0x5a);
    bytes
}

/// Mostly few, often none or about a header.
fn any_bytes(rng: &mut Rng) -> Vec<u8> {
    let length = match rng.below(4) {
        0 => 0,
        1 => rng.range(HEADER - 2, HEADER + 2),
        2 => rng.below(200),
        _ => rng.below(5000),
    };
    let mut bytes = filled(rng, length);
    // A header of an empty record, or only its settings.
    let known = if rng.percent(50) { HEADER } else { 4 };
    if rng.percent(60) {
        bytes.iter_mut().take(known).for_each(|byte| *byte = 0);
        bytes.iter_mut().take(1).for_each(|byte| *byte = 64);
    }
    bytes
}

/// About as many as the programs read, and more.
fn long(rng: &mut Rng) -> Vec<u8> {
    let mut bytes = if rng.percent(70) { at_limits(rng) } else { vec![] };
    let length = rng.pick(&[64_337, 65_535, 65_536, 65_537, 65_538, 70_000, 131_072]);
    let more = length - bytes.len();
    bytes.extend(filled(rng, more));
    bytes
}

/// So many bytes of any value.
fn filled(rng: &mut Rng, length: usize) -> Vec<u8> {
    let mut bytes: Vec<u8> = (0..length.div_ceil(8)).flat_map(|_| rng.u64().to_le_bytes()).collect();
    bytes.truncate(length);
    bytes
}
