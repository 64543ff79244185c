//! Listings of the kind that a command table looks at: call lines, lines that set a register, and near misses of both, of several blocks.

use super::{ASSIGNS, PUNCT, REGISTER};
use crate::literals::{self, ADDRESS, MOST};
use crate::rng::Rng;
use crate::rows::{Row, Token};

/// A listing, and the names that a table of it is asked for.
pub struct Case {
    pub lines: Vec<Row>,
    pub call: Vec<u8>,
    pub register: Vec<u8>,
}

/// Names of calls: some begin others, and some are what else a line may have.
const CALLS: [&[u8]; 15] = [
    b"Send", b"Sen", b"SendB", b"send", b"sub_401000", b"sub_40100", b"S", b"rdx", b" = ", b"(", b"\"FA\\r\"", b"\"\"", b"\n",
    b"\0", b"\xff\xfe",
];

const REGISTERS: [&[u8]; 12] = [b"rdx", b"rd", b"rdx1", b"edx", b"dx", b"Rdx", b"r8", b"r8d", b"rcx", b"arg_8", b"\0", b"r\n"];

/// Places that the same low byte have, and the outermost ones.
const PLACES: [u16; 8] = [0, 1, 2, 255, 256, 257, 65_279, 65_535];

const NOT_ASSIGNS: [&[u8]; 10] = [b" =", b"= ", b"=", b" == ", b" = =", b"  = ", b" += ", b" -= ", b"++;", b" =\0"];
const OPENS: [&[u8]; 4] = [b"(", b"();", b"((", b"(\0"];
const NOT_OPENS: [&[u8]; 7] = [b")", b" (", b";", b"[", b"\0(", b"{", b"\xa8"];

/// Spellings of a byte that no listing has.
const SPELLED_OTHERWISE: [&[u8]; 4] = [b"\"\\u{0}\"", b"\"FA\\u{0d}\"", b"L\"\\u{0}\"", b"\"\\u{41}\""];

/// What the lines of a listing are made of.
struct World<'a> {
    call: &'a [u8],
    register: &'a [u8],
    places: Vec<u16>,
}

type Tokens = fn(&mut Rng, &World<'_>) -> Vec<Token>;
type Change = fn(&mut Rng, &World<'_>, &mut Row);

/// The tokens that a kind of line begins with, and what is changed in them or in the line, which has an address.
const LINES: [(&str, Tokens, Change); 25] = [
    ("call by the name", called, |_, _, _| {}),
    ("literal set", set, |_, _, _| {}),
    ("call by another name", called, |rng, world, line| line.tokens[2].text = other(rng, &CALLS, world.call)),
    ("call into the register", called, |_, world, line| line.tokens[0].text = world.register.to_vec()),
    ("call of a literal", set, |rng, world, line| call_literal(rng, world, line)),
    ("call without address", called, |_, _, line| line.address = None),
    ("call, first token no register", called, |rng, _, line| line.tokens[0].kind = other_kind(rng, REGISTER)),
    ("call, another second token", called, |rng, _, line| line.tokens[1].text = rng.pick(&NOT_ASSIGNS).to_vec()),
    ("call, fourth token no Punct", called, |rng, _, line| line.tokens[3].kind = other_kind(rng, PUNCT)),
    ("call, fourth token without (", called, |rng, _, line| line.tokens[3].text = rng.pick(&NOT_OPENS).to_vec()),
    ("call cut short", called, |rng, _, line| line.tokens.truncate(rng.range(1, 3))),
    ("call with a token too many", called, |rng, _, line| line.tokens.insert(rng.below(4), any_token(rng))),
    ("literal set, nothing behind it", set, |_, _, line| line.tokens.truncate(3)),
    ("literal set, anything behind it", set, |rng, _, line| line.tokens[3] = any_token(rng)),
    ("literal set without address", set, |_, _, line| line.address = None),
    ("cut literal set", set, |rng, _, line| line.tokens[2].text = cut(rng)),
    ("literal spelled otherwise set", set, |rng, _, line| line.tokens[2].text = rng.pick(&SPELLED_OTHERWISE).to_vec()),
    ("no such literal set", set, |rng, _, line| line.tokens[2].text = damaged(rng)),
    ("literal of another kind set", set, |rng, _, line| line.tokens[2].kind = other_kind(rng, ADDRESS)),
    ("another value set", set, |rng, _, line| line.tokens[2] = any_token(rng)),
    ("another second token", set, |rng, _, line| line.tokens[1].text = rng.pick(&NOT_ASSIGNS).to_vec()),
    ("the register and no value", set, |rng, _, line| line.tokens.truncate(rng.range(1, 2))),
    ("another register set", set, |rng, world, line| line.tokens[0].text = other(rng, &REGISTERS, world.register)),
    ("no register set", set, |rng, _, line| line.tokens[0].kind = other_kind(rng, REGISTER)),
    ("any line", any_tokens, |rng, _, line| line.address = line.address.filter(|_| rng.percent(60))),
];

pub const KINDS: usize = LINES.len();

/// What a kind of line is called.
pub fn name(kind: usize) -> &'static str {
    LINES[kind].0
}

pub fn case(rng: &mut Rng) -> Case {
    counted(rng, &mut [0; KINDS])
}

/// The same, with the lines of each kind added to their counts.
pub fn counted(rng: &mut Rng, kinds: &mut [usize; KINDS]) -> Case {
    let (call, register) = (any_name(rng, &CALLS), any_name(rng, &REGISTERS));
    let places = (0..rng.range(1, 4)).map(|_| rng.pick(&PLACES)).collect();
    let world = World { call: &call, register: &register, places };
    let length = match rng.below(200) {
        0..=4 => 0,
        5..=189 => rng.range(1, 14),
        190..=198 => rng.range(15, 40),
        _ => rng.range(100, 300),
    };
    let mut place = world.places[0];
    let lines = (0..length).map(|_| {
        if rng.percent(30) {
            place = rng.pick(&world.places);
        }
        let kind = match rng.below(10) {
            0..=1 => 0,
            2..=3 => 1,
            _ => rng.below(KINDS),
        };
        kinds[kind] += 1;
        line(rng, &world, kind, place)
    });
    let lines = lines.collect();
    Case { lines, call, register }
}

/// A line of this kind, with an address unless the kind takes it away. 0 is an address too.
fn line(rng: &mut Rng, world: &World<'_>, kind: usize, place: u16) -> Row {
    let address = if rng.percent(5) { 0 } else { rng.any_width() };
    let (_, tokens, change) = LINES[kind];
    let mut line = Row { address: Some(address), indent: rng.below(255) as u8, place, tokens: tokens(rng, world) };
    change(rng, world, &mut line);
    line
}

/// So many bytes that their ends pass 65,536: each of the lines that set a register has the most that a literal gives.
pub fn long() -> Case {
    let string: Vec<u8> = (0..MOST as u8).collect();
    let line = |n: u64| {
        let tokens = match n % 2 {
            0 => vec![token(REGISTER, b"rdx"), token(PUNCT, ASSIGNS), token(ADDRESS, &literals::literal(n % 4 == 0, &string))],
            _ => vec![token(REGISTER, b"rax"), token(PUNCT, ASSIGNS), token(0, b"Send"), token(PUNCT, b"(")],
        };
        Row { address: Some(n), tokens, ..Row::default() }
    };
    Case { lines: (0..1800).map(line).collect(), call: b"Send".to_vec(), register: b"rdx".to_vec() }
}

fn token(kind: u8, text: &[u8]) -> Token {
    Token { kind, text: text.to_vec() }
}

fn any_name(rng: &mut Rng, names: &[&[u8]]) -> Vec<u8> {
    match rng.below(20) {
        0 => (0..rng.range(1, 300)).map(|_| rng.below(256) as u8).collect(),
        1..=4 => rng.pick(names).to_vec(),
        _ => names[0].to_vec(),
    }
}

/// Another name than this one: mostly one that begins with it or that it begins with.
fn other(rng: &mut Rng, names: &[&[u8]], but: &[u8]) -> Vec<u8> {
    let among = if rng.percent(60) { &names[..4] } else { names };
    let others: Vec<&[u8]> = among.iter().copied().filter(|name| *name != but).collect();
    rng.pick(&others).to_vec()
}

fn other_kind(rng: &mut Rng, but: u8) -> u8 {
    (but + rng.range(1, 7) as u8) % 8
}

/// ` = `, mostly a Punct.
fn assigns(rng: &mut Rng) -> Token {
    token(if rng.percent(50) { PUNCT } else { rng.below(8) as u8 }, ASSIGNS)
}

/// A call line's tokens, and now and then what stands behind them.
fn called(rng: &mut Rng, world: &World<'_>) -> Vec<Token> {
    let to = rng.pick(&[b"rax", b"eax", b"rdx"]);
    let mut tokens = vec![token(REGISTER, to), assigns(rng), token(rng.below(8) as u8, world.call), opens(rng)];
    tokens.extend((0..rng.below(3)).map(|_| any_token(rng)));
    tokens
}

fn opens(rng: &mut Rng) -> Token {
    token(PUNCT, rng.pick(&OPENS))
}

/// The register, ` = `, a literal and a semicolon.
fn set(rng: &mut Rng, world: &World<'_>) -> Vec<Token> {
    vec![token(REGISTER, world.register), assigns(rng), token(ADDRESS, &literal(rng)), token(PUNCT, b";")]
}

/// `rdx = "FA\r"(`: a call line, and none that sets the register.
fn call_literal(rng: &mut Rng, world: &World<'_>, line: &mut Row) {
    line.tokens[3] = opens(rng);
    if rng.percent(50) {
        line.tokens[2].text = world.call.to_vec();
    }
}

/// One that is not cut: empty, of just 80 characters, wide or any other.
fn literal(rng: &mut Rng) -> Vec<u8> {
    let mut string = literals::any::string(rng);
    string.truncate(if rng.percent(10) { 0 } else { MOST });
    literals::literal(rng.percent(40), &string)
}

/// The literal of 81 characters or more.
fn cut(rng: &mut Rng) -> Vec<u8> {
    let mut string = literals::any::string(rng);
    string.resize(string.len().max(rng.range(MOST + 1, MOST + 9)), b'a');
    literals::literal(rng.percent(40), &string)
}

/// A literal with damage: most are no literals then.
fn damaged(rng: &mut Rng) -> Vec<u8> {
    let literal = literals::string(&literal(rng)).expect("a literal");
    let kind = rng.below(literals::damage::KINDS);
    let text = literals::damage::damaged(rng, &literal, kind);
    if text.is_empty() {
        b"\"".to_vec()
    } else {
        text
    }
}

fn any_token(rng: &mut Rng) -> Token {
    let texts: [&[u8]; 10] = [b"0x41", b"rcx", b" = ", b"(", b"\"FA\"", b";", b"Send", b"rdx", b"*(uint64_t *)", b"\0"];
    token(rng.below(8) as u8, rng.pick(&texts))
}

/// A lone brace, a label, or any tokens.
fn any_tokens(rng: &mut Rng, _: &World<'_>) -> Vec<Token> {
    match rng.below(4) {
        0 => vec![token(PUNCT, b"}")],
        1 => vec![token(4, b"loc_401000"), token(PUNCT, b":")],
        _ => (0..rng.range(1, 5)).map(|_| any_token(rng)).collect(),
    }
}
