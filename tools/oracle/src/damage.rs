//! Calls that break chosen questions.

mod branches;

use crate::gen;
use crate::questions;
use crate::record::{Layout, BODY, HEADER};
use crate::rng::Rng;

/// What a call lends: a record's bytes and a range.
#[derive(Clone)]
pub struct Call {
    pub bytes: Vec<u8>,
    pub from: usize,
    pub to: usize,
}

/// A call with a valid record and a valid range.
pub fn valid_call(rng: &mut Rng) -> Call {
    let record = gen::valid(rng);
    let b = record.blocks.len();
    let (from, to) = good_range(rng, b);
    Call { bytes: record.to_bytes(), from, to }
}

fn good_range(rng: &mut Rng, b: usize) -> (usize, usize) {
    if rng.percent(60) {
        return (0, b);
    }
    let to = rng.range(0, b);
    (rng.range(0, to), to)
}

/// A copy of a valid call that breaks one question, two, three, or whatever chance hits.
pub fn damaged(rng: &mut Rng, base: &Call) -> Call {
    let mut call = base.clone();
    let how_many = match rng.below(100) {
        0..=59 => 1,
        60..=84 => 2,
        85..=89 => 3,
        _ => {
            fuzz(rng, &Layout::of(&base.bytes), &mut call);
            return call;
        }
    };
    let mut chosen: Vec<u8> = (0..how_many).map(|_| rng.pick(&questions::numbers())).collect();
    // 15 is asked between 8 and 9: often with one of them, so that the order shows.
    if how_many > 1 && rng.percent(30) {
        chosen[0] = 15;
        chosen[1] = rng.pick(&[8, 9]);
    }
    // 15 first, which needs a record that can be read; the header's sizes and the length last, so that the others still find their fields.
    chosen.sort_by_key(|&q| (q <= 4, std::cmp::Reverse(q)));
    chosen.dedup();
    for q in chosen {
        break_question(rng, &mut call, q);
    }
    call
}

/// Every change of one byte and of one header field of a small valid record, every shorter length and some longer ones.
pub fn each_small_change(mut each: impl FnMut(&Call) -> Result<(), String>) -> Result<(), String> {
    let record = gen::small();
    let base = Call { bytes: record.to_bytes(), from: 0, to: record.blocks.len() };
    for n in 0..base.bytes.len() + 100 {
        let mut call = base.clone();
        call.bytes.resize(n, 0);
        each(&call)?;
    }
    let mut call = base.clone();
    for at in 0..base.bytes.len() {
        for byte in 0..=255 {
            put(&mut call, at, &[byte]);
            each(&call)?;
        }
        put(&mut call, at, &base.bytes[at..=at]);
    }
    for at in (0..HEADER).step_by(2) {
        for n in 0..=0xffff {
            put_u16(&mut call, at, n);
            each(&call)?;
        }
        put(&mut call, at, &base.bytes[at..at + 2]);
    }
    Ok(())
}

/// Breaks a question, if the record has what the question asks about.
fn break_question(rng: &mut Rng, call: &mut Call, question: u8) {
    let l = &Layout::of(&call.bytes);
    match question {
        1 => call.bytes.truncate(rng.below(24)),
        2 => settings(rng, call),
        3 => limits(rng, call),
        4 => length(rng, l, call),
        5 => counts(rng, l, call),
        6 => starts(rng, l, call),
        7 => edge_kinds(rng, l, call),
        8 => instructions(rng, l, call),
        9 => atlas(rng, l, call),
        10 => spans(rng, l, call),
        11 => range(rng, l, call),
        _ => branches::contradict(rng, call),
    }
}

// Bytes past the end are left alone: an earlier break may have cut them off.

fn put(call: &mut Call, at: usize, bytes: &[u8]) {
    if let Some(place) = call.bytes.get_mut(at..at + bytes.len()) {
        place.copy_from_slice(bytes);
    }
}

fn put_u16(call: &mut Call, at: usize, n: usize) {
    put(call, at, &(n as u16).to_le_bytes());
}

fn get(call: &Call, at: usize, n: usize) -> Vec<u8> {
    call.bytes.get(at..at + n).map_or(vec![0; n], |b| b.to_vec())
}

fn get_u16(call: &Call, at: usize) -> usize {
    u16::from_le_bytes(get(call, at, 2).try_into().unwrap()).into()
}

fn get_u64(call: &Call, at: usize) -> u64 {
    u64::from_le_bytes(get(call, at, 8).try_into().unwrap())
}

fn settings(rng: &mut Rng, call: &mut Call) {
    match rng.below(4) {
        0 => {
            let bits =
                rng.pick(&[0, 1, 8, 15, 17, 31, 33, 63, 65, 128, 16 + 256, 32 + 256, 64 + 256, 0x1000, 0x2000, 0x4000, 0xffff]);
            put_u16(call, 0, bits);
        }
        1 => {
            let convention = rng.pick(&[2, 3, 255, 256, 257, 0xffff]);
            put_u16(call, 2, convention);
        }
        2 => {
            let mark = rng.pick(&[2, 3, 128, 255]);
            put(call, 20, &[mark]);
        }
        _ => {
            let at = 16 + rng.below(4);
            let byte = rng.pick(&[1, 0x80, 0xff]);
            put(call, 16, &[0; 5]);
            put(call, at, &[byte]);
        }
    }
}

/// Where the header holds each size, and its limit.
const SIZES: [(usize, usize); 6] =
    [(4, gen::LIMIT_B), (6, gen::LIMIT_I), (8, gen::LIMIT_E), (10, gen::LIMIT_A), (12, gen::LIMIT_S), (22, gen::LIMIT_T)];

fn limits(rng: &mut Rng, call: &mut Call) {
    match rng.below(10) {
        0..=2 => {
            let which = rng.below(7);
            let record = gen::around_limit(rng, which, 1);
            call.to = record.blocks.len();
            call.bytes = record.to_bytes();
        }
        3 => {
            let indent = rng.pick(&[56, 57, 128, 255]);
            put(call, 21, &[indent]);
        }
        _ => {
            let (at, limit) = rng.pick(&SIZES);
            let size = match rng.below(4) {
                0 => 0xffff,
                1 => rng.range(limit + 1, 0xffff),
                2 => ((get_u16(call, at) | 0x8000) + rng.below(2)).min(0xffff),
                _ => limit + 1,
            };
            put_u16(call, at, size);
        }
    }
}

fn length(rng: &mut Rng, l: &Layout, call: &mut Call) {
    let n = call.bytes.len();
    match rng.below(6) {
        0 => call.bytes.truncate(n.saturating_sub(1).max(24)),
        1 => {
            let more = rng.pick(&[1, 1, 2, 8, 16, 92, 1000]);
            call.bytes.resize(n + more, rng.below(256) as u8);
        }
        2 => {
            let ends =
                [l.starts, l.marks, l.targets, l.kinds, l.addresses, l.bodies, l.atlas, l.atlas_marks, l.spans, l.text, l.end];
            let at = rng.pick(&ends) + rng.below(3);
            call.bytes.truncate((at - 1).max(24));
        }
        3 => call.bytes.truncate(rng.range(24, n.max(24))),
        _ => {
            let (at, limit) = rng.pick(&SIZES);
            let size = get_u16(call, at);
            let up = size == 0 || (size < limit && rng.percent(50));
            put_u16(call, at, if up { size + 1 } else { size - 1 });
        }
    }
}

fn counts(rng: &mut Rng, l: &Layout, call: &mut Call) {
    if l.b == 0 {
        // Instructions that no block owns.
        put_u16(call, 6, 1);
        call.bytes.resize(call.bytes.len() + 8 + BODY, 0);
        return;
    }
    let at = l.marks + 4 * rng.below(l.b);
    let other = l.marks + 4 * rng.below(l.b);
    let insns = get_u16(call, at);
    let edges = get(call, at + 2, 1)[0];
    match rng.below(7) {
        0 => put_u16(call, at, if insns > 0 && rng.percent(50) { insns - 1 } else { insns + 1 }),
        1 => put_u16(call, at, 0xffff),
        2 => put(call, at + 2, &[edges.wrapping_add(rng.pick(&[1, 255, 128]))]),
        3 => {
            let mark = rng.pick(&[2, 3, 128, 255]);
            put(call, at + 3, &[mark]);
        }
        // Totals that are right in too few bits.
        4 if at != other => {
            put_u16(call, at, (insns + 0x8000) & 0xffff);
            let more = get_u16(call, other);
            put_u16(call, other, (more + 0x8000) & 0xffff);
        }
        5 if at != other => {
            let more = get(call, other + 2, 1)[0];
            put(call, at + 2, &[edges ^ 0x80]);
            put(call, other + 2, &[more ^ 0x80]);
        }
        _ => put_u16(call, at, insns ^ 0x100),
    }
}

fn starts(rng: &mut Rng, l: &Layout, call: &mut Call) {
    if l.b < 2 {
        return;
    }
    let a = rng.below(l.b);
    let b = match rng.below(3) {
        0 => (a + 1) % l.b,
        1 => (a + l.b - 1) % l.b,
        _ => (a + 1 + rng.below(l.b - 1)) % l.b,
    };
    let start = get(call, l.starts + 8 * a, 8);
    put(call, l.starts + 8 * b, &start);
}

fn edge_kinds(rng: &mut Rng, l: &Layout, call: &mut Call) {
    if l.e > 0 {
        let at = l.kinds + end_or_any(rng, l.e);
        let kind = rng.pick(&[5, 5, 6, 16, 128, 255]);
        put(call, at, &[kind]);
    }
}

/// The first, the last, or any of n.
fn end_or_any(rng: &mut Rng, n: usize) -> usize {
    match rng.below(4) {
        0 => 0,
        1 => n - 1,
        _ => rng.below(n),
    }
}

/// A register number that no register has.
fn no_register(rng: &mut Rng) -> u8 {
    rng.pick(&[1, 2, 8, 15, 36, 37, 47, 98, 99, 111, 118, 119, 127, 160, 161, 176, 255])
}

fn instructions(rng: &mut Rng, l: &Layout, call: &mut Call) {
    if l.i == 0 || rng.percent(6) {
        let low = no_register(rng) as usize;
        let frame = rng.pick(&[low, low, 0x100, 0x100 + 80, 0xff50, 0x5000]);
        put_u16(call, 14, frame);
    } else {
        let at = l.body(end_or_any(rng, l.i));
        in_body(rng, call, at);
    }
}

/// A wrong field of the body that begins at `body`.
fn in_body(rng: &mut Rng, call: &mut Call, body: usize) {
    let slot = body + 18 + 10 * rng.below(5);
    match rng.below(11) {
        0 => {
            let mnemonic = rng.pick(&[46, 47, 64, 128, 255]);
            put(call, body, &[mnemonic]);
            put(call, body + 1, &[0]);
            put(call, body + 68, &[0; 24]);
        }
        1 => condition(rng, call, body),
        2 => {
            let count = rng.pick(&[6, 7, 128, 255]);
            put(call, body + 2, &[count]);
        }
        3 => {
            let skip = rng.pick(&[2, 3, 128, 255]);
            put(call, body + 3, &[skip]);
        }
        4 | 5 => {
            let at = body + 4 + rng.below(3);
            let register = no_register(rng);
            put(call, at, &[register]);
        }
        6 => {
            let scale = rng.pick(&[0, 3, 5, 6, 7, 9, 16, 128, 255]);
            put(call, body + 7, &[scale]);
        }
        7 => {
            let kind = rng.pick(&[12, 13, 128, 255]);
            put(call, slot, &[kind]);
        }
        8 => {
            let register = no_register(rng);
            put(call, slot + 1, &[register]);
        }
        _ => wrong_name(rng, call, body),
    }
}

fn condition(rng: &mut Rng, call: &mut Call, body: usize) {
    let wrong = match get(call, body, 1)[0] {
        0 => rng.pick(&[17, 18, 128, 255]),
        26 | 27 => rng.pick(&[0, 0, 17, 255]),
        _ => rng.pick(&[1, 16, 17, 255]),
    };
    put(call, body + 1, &[wrong]);
}

fn wrong_name(rng: &mut Rng, call: &mut Call, body: usize) {
    let at = body + 68;
    if get(call, body, 1)[0] != 0 {
        let byte = rng.pick(&[b'a', 1, b'_', 255]);
        let k = rng.below(24);
        return put(call, at + k, &[byte]);
    }
    let length = get(call, at, 24).iter().position(|&b| b == 0).unwrap_or(24);
    match rng.below(4) {
        // No name, a byte out of the alphabet, a gap, bytes after the zeros.
        0 => put(call, at, &[0; 24]),
        1 => {
            let byte = rng.pick(b"A Z`{/:^@-.\x7f\x80\xff\x01");
            let k = rng.below(length.max(1));
            put(call, at + k, &[byte]);
        }
        2 => put(call, at, &[0]),
        _ if length < 23 => {
            let k = rng.range(length + 1, 23);
            put(call, at + k, b"a");
        }
        _ => put(call, at + 22, &[0, b'a']),
    }
}

fn atlas(rng: &mut Rng, l: &Layout, call: &mut Call) {
    if l.a == 0 {
        // Text that no entry owns.
        put_u16(call, 22, 1);
        call.bytes.push(b'a');
        return;
    }
    let n = end_or_any(rng, l.a);
    let pair = l.atlas_marks + 2 * n;
    match rng.below(6) {
        0 if l.a > 1 => wrong_order(rng, l, call),
        1 => {
            let kind = rng.pick(&[0, 4, 5, 128, 255]);
            put(call, pair, &[kind]);
        }
        2 => {
            let length = get(call, pair + 1, 1)[0].wrapping_add(rng.pick(&[1, 255, 128]));
            put(call, pair + 1, &[length]);
        }
        3 if l.a > 1 => {
            // Right in eight bits.
            let other = l.atlas_marks + 2 * ((n + 1) % l.a);
            for at in [pair, other] {
                let length = get(call, at + 1, 1)[0] ^ 0x80;
                put(call, at + 1, &[length]);
            }
        }
        4 => empty_name(l, call, n),
        _ => wrong_text(rng, l, call, n),
    }
}

fn wrong_order(rng: &mut Rng, l: &Layout, call: &mut Call) {
    let at = l.atlas + 8 * rng.below(l.a - 1);
    let (low, high) = (get(call, at, 8), get(call, at + 8, 8));
    match rng.below(3) {
        0 => put(call, at + 8, &low),
        1 => put(call, at, &high),
        _ => {
            put(call, at, &high);
            put(call, at + 8, &low);
        }
    }
}

/// A name without bytes, its length given to a neighbour or taken from T.
fn empty_name(l: &Layout, call: &mut Call, n: usize) {
    let pair = l.atlas_marks + 2 * n;
    let length = get(call, pair + 1, 1)[0];
    put(call, pair, &[3, 0]);
    let before: usize = (0..n).map(|k| get(call, l.atlas_marks + 2 * k + 1, 1)[0] as usize).sum();
    let from = l.text + before;
    if from + length as usize <= call.bytes.len() {
        call.bytes.drain(from..from + length as usize);
        put_u16(call, 22, l.t - length as usize);
    }
}

/// A byte that the entry's kind does not allow.
fn wrong_text(rng: &mut Rng, l: &Layout, call: &mut Call, n: usize) {
    let mark = |call: &Call, k: usize| get(call, l.atlas_marks + 2 * k, 2);
    let before: usize = (0..n).map(|k| mark(call, k)[1] as usize).sum();
    let [kind, length] = mark(call, n)[..] else { return };
    if length == 0 {
        return;
    }
    let byte = match kind {
        3 => rng.pick(&[0, 0x1f, 0x7f, 0x80, 0xff]),
        _ => rng.pick(&[0x80, 0x81, 0xc3, 0xff]),
    };
    put(call, l.text + before + end_or_any(rng, length as usize), &[byte]);
}

fn spans(rng: &mut Rng, l: &Layout, call: &mut Call) {
    if l.s == 0 {
        return;
    }
    let at = l.spans + 16 * end_or_any(rng, l.s);
    let (first, last) = (get_u64(call, at), get_u64(call, at + 8));
    let (first, last) = match rng.below(4) {
        0 if first < last => (last, first),
        1 => (last.max(1), last.max(1) - 1),
        2 => (u64::MAX, rng.any_width() >> 1),
        _ => (1 << 63, (1 << 63) - 1 - rng.below(2) as u64),
    };
    put(call, at, &first.to_le_bytes());
    put(call, at + 8, &last.to_le_bytes());
}

fn range(rng: &mut Rng, l: &Layout, call: &mut Call) {
    let far = rng.pick(&[usize::MAX, usize::MAX - 1, 1 << 63, 1 << 32, 0x1_0000, 1 << 16 | l.b, 1 << 32 | l.b]);
    (call.from, call.to) = match rng.below(7) {
        0 => (0, l.b + 1),
        1 => (l.b + 1, l.b + 1),
        2 => (rng.range(0, l.b) + 1, 0),
        3 => (l.b + 1, l.b),
        4 => (0, far),
        5 => (far, rng.range(0, l.b)),
        _ => {
            let to = rng.range(0, l.b);
            (to + 1, to)
        }
    };
}

/// Damage that aims at nothing.
fn fuzz(rng: &mut Rng, l: &Layout, call: &mut Call) {
    match rng.below(9) {
        0 => {
            let n = rng.pick(&[0, 1, 23, 24, 25, 36, 116, 300]);
            call.bytes = (0..n).map(|_| rng.u64() as u8).collect();
        }
        // Sizes that trade places without changing the length: the arrays are read elsewhere.
        1 if l.t >= 12 => {
            put_u16(call, 4, l.b + 1);
            put_u16(call, 22, l.t - 12);
        }
        2 if l.s > 0 => {
            put_u16(call, 12, l.s - 1);
            put_u16(call, 22, l.t + 16);
        }
        3 if l.a > 0 => {
            put_u16(call, 10, l.a - 1);
            put_u16(call, 22, l.t + 10);
        }
        // A start that equals the bytes after the starts is no start twice.
        4 if l.b > 1 => {
            let marks = get(call, l.marks, 8);
            put(call, l.starts + 8 * rng.below(l.b), &marks);
        }
        _ => {
            for _ in 0..rng.range(1, 3) {
                let at = rng.below(call.bytes.len());
                let byte = if rng.percent(50) { call.bytes[at] ^ 1 << rng.below(8) } else { rng.u64() as u8 };
                put(call, at, &[byte]);
            }
        }
    }
}
