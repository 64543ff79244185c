//! The replay corpus: calls with their answers, for a proved program that makes the calls again.
//!
//! Little-endian. First a u32, the number of cases. Then each case, at these offsets:
//!
//! ```text
//!   0  u32      length of the record
//!   4  7 u32    lengths of the lists lent: text, token ends, token kinds, line addresses, line marks, line places, line token ends
//!  32  u32      the answer: 0, or the number of a refusal
//!  36  3 u32    sizes: text bytes, tokens, lines; 0 if refused
//!  48  2 u64    from, to
//!  64  7 u64    sums of the seven lists after the call
//! 120           the record's bytes
//! ```
//!
//! Every list is lent with each byte 0xee. A list's sum is over all that was lent, so over what must not change too: from 1,
//! for each number x in turn, h becomes (1000003 h + x) mod 4294967311; a u64 counts as two numbers, its low 32 bits first.
//! Nothing reaches 2^53. No record has more than 65,536 bytes, and no list is longer than the program `listing` lends it.

use crate::damage::{self, Call};
use crate::gen;
use crate::listing::{self, Listing};
use crate::lists::{self, Lists};
use crate::questions;
use crate::record::{self, Layout, Record};
use crate::rng::Rng;

/// The corpus that is kept.
pub const COUNT: usize = 300;
pub const SEED: u64 = 1;

/// The length of most records is at most this.
pub const SMALL: usize = 1600;

const FACTOR: u64 = 1_000_003;
const PRIME: u64 = 4_294_967_311;

/// What the program `listing` holds: record bytes, text bytes, tokens, lines.
const HOLDS: [usize; 4] = [65_536, 65_536, 16_384, 900];

/// A call, the lists that it is lent and as it leaves them, and what it answers.
pub struct Case {
    pub call: Call,
    lent: Lists,
    left: Lists,
    pub no: u8,
    sizes: [usize; 3],
}

/// The bytes of the corpus.
pub fn corpus(count: usize, seed: u64) -> Result<Vec<u8>, String> {
    let mut out = (count as u32).to_le_bytes().to_vec();
    for case in cases(count, seed)? {
        case.put(&mut out);
    }
    Ok(out)
}

/// The same count and seed give the same cases: document 01's example first, a record at every limit last, and between
/// them listings (those that notice mutants first), refusals of every number and lists that are too short in turn.
pub fn cases(count: usize, seed: u64) -> Result<Vec<Case>, String> {
    let mut rng = Rng::new(seed);
    let mut witnesses = witnesses();
    let asked = questions::numbers();
    (0..count)
        .map(|n| match n % 10 {
            _ if n == 0 => listed(whole(&record::example()), 0),
            _ if n + 1 == count => listed(until_some(|| at_limits(&mut rng))?, 0),
            6 | 7 => refused(&mut rng, asked[(n / 10 * 2 + n % 2) % asked.len()]),
            8 => too_short(&mut rng, n / 10 % 9),
            _ => listed(witnesses.next().unwrap_or_else(|| usual_call(&mut rng, n)), n),
        })
        .collect()
}

/// Calls that notice each mutant of `mutants.txt` that can be noticed. `oracle witnesses` finds their seeds.
fn witnesses() -> impl Iterator<Item = Call> {
    let seeds = include_str!("replay/witnesses.txt").split_whitespace();
    seeds.map(|seed| valid_call(seed.parse().expect("a seed")))
}

/// The valid call of a seed.
pub fn valid_call(seed: u64) -> Call {
    damage::valid_call(&mut Rng::new(seed))
}

/// The whole range of a record.
fn whole(record: &Record) -> Call {
    Call { bytes: record.to_bytes(), from: 0, to: record.blocks.len() }
}

/// A record at every limit whose listing the program `listing` holds.
fn at_limits(rng: &mut Rng) -> Option<Call> {
    let call = whole(&gen::at_limits(rng));
    let ours = listing::list(&call.bytes, call.from, call.to).ok()?;
    let [text, tokens, lines] = ours.sizes();
    let sizes = [call.bytes.len(), text, tokens, lines];
    sizes.iter().zip(HOLDS).all(|(size, most)| *size <= most).then_some(call)
}

/// A small valid call with some lines, every third one of a part of its record; now and then as it comes.
fn usual_call(rng: &mut Rng, n: usize) -> Call {
    loop {
        let call = small_call(rng, SMALL);
        let is_part = call.to - call.from < Layout::of(&call.bytes).b;
        let lines = sizes_of(&call).map_or(0, |(_, sizes)| sizes[2]);
        if n % 40 == 0 || lines > 2 && (is_part || n % 3 > 0) {
            return call;
        }
    }
}

/// A valid call with at most so many bytes.
fn small_call(rng: &mut Rng, most: usize) -> Call {
    loop {
        let call = damage::valid_call(rng);
        if call.bytes.len() <= most {
            return call;
        }
    }
}

fn until_some<T>(mut make: impl FnMut() -> Option<T>) -> Result<T, String> {
    (0..100_000).find_map(|_| make()).ok_or_else(|| "no such case was generated".to_string())
}

fn sizes_of(call: &Call) -> Result<(Listing, [usize; 3]), String> {
    let ours = listing::list(&call.bytes, call.from, call.to).map_err(|e| format!("the Rust panics: {e}"))?;
    let sizes = ours.sizes();
    Ok((ours, sizes))
}

/// An accepted call, on lists that fit or, for odd `n`, are longer.
fn listed(call: Call, n: usize) -> Result<Case, String> {
    let (ours, sizes) = sizes_of(&call)?;
    let lent = match n % 2 {
        0 => Lists::lent(lists::fitting(sizes)),
        _ => Lists::longer(sizes),
    };
    Ok(Case { call, left: lent.clone().filled(&ours), lent, no: 0, sizes })
}

/// A call that question `no` is the first to refuse.
fn refused(rng: &mut Rng, no: u8) -> Result<Case, String> {
    let call = until_some(|| {
        let base = small_call(rng, 600);
        let call = damage::damaged(rng, &base);
        let first = questions::first_no(&call.bytes, call.from, call.to);
        (first == no && call.bytes.len() <= 1200).then_some(call)
    })?;
    Ok(refusal(call, Lists::lent(lists::fitting([64, 16, 8])), no))
}

fn refusal(call: Call, lent: Lists, no: u8) -> Case {
    Case { call, left: lent.clone(), lent, no, sizes: [0; 3] }
}

/// One of the seven lists one too short, or several of them.
fn too_short(rng: &mut Rng, which: usize) -> Result<Case, String> {
    let (call, sizes) = until_some(|| {
        let call = small_call(rng, 600);
        let (_, sizes) = sizes_of(&call).ok()?;
        (sizes[2] > 0).then_some((call, sizes))
    })?;
    let [x, k, l] = sizes;
    let (lent, no) = match which {
        0..7 => Lists::one_less(sizes, which),
        7 => (Lists::lent([x, k - 1, 0, 0, l, l, l - 1]), 13),
        _ => (Lists::lent([0; 7]), 12),
    };
    Ok(refusal(call, lent, no))
}

impl Case {
    fn put(&self, out: &mut Vec<u8>) {
        let Case { call, lent, left, no, sizes } = self;
        put_u32(out, call.bytes.len());
        lent.lengths().into_iter().for_each(|n| put_u32(out, n));
        put_u32(out, (*no).into());
        sizes.iter().for_each(|n| put_u32(out, *n));
        out.extend((call.from as u64).to_le_bytes());
        out.extend((call.to as u64).to_le_bytes());
        for sum in sums(left) {
            out.extend(sum.to_le_bytes());
        }
        out.extend(&call.bytes);
    }
}

fn put_u32(out: &mut Vec<u8>, n: usize) {
    out.extend(u32::try_from(n).expect("sizes are small").to_le_bytes());
}

/// The sums of seven lists, as the corpus has them.
pub fn sums(lists: &Lists) -> [u64; 7] {
    [
        sum(lists.text.iter().map(|n| u64::from(*n))),
        sum(lists.ends.iter().map(|n| u64::from(*n))),
        sum(lists.kinds.iter().map(|n| u64::from(*n))),
        sum(lists.addresses.iter().flat_map(|n| [n & 0xffff_ffff, n >> 32])),
        sum(lists.marks.iter().map(|n| u64::from(*n))),
        sum(lists.places.iter().map(|n| u64::from(*n))),
        sum(lists.line_ends.iter().map(|n| u64::from(*n))),
    ]
}

fn sum(numbers: impl Iterator<Item = u64>) -> u64 {
    numbers.fold(1, |h, x| (FACTOR * h + x) % PRIME)
}
