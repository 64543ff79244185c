//! The lists of an accepted call: document 01's, made from the Rust's lines, and with #107 the lines' places, made from the record.

use std::cell::Cell;
use std::panic::{catch_unwind, AssertUnwindSafe};

use crate::amended;
use crate::departures;
use crate::emitter::{self, PseudoLine};
use crate::model::TokenKind;
use crate::questions;
use crate::record::{Layout, Record, HEADER};

/// What the program `listing` reads at most, and how much text and how many tokens it holds.
const MOST_INPUT: usize = 65_536;
const MOST_TEXT: usize = 65_536;
const MOST_TOKENS: usize = 16_384;

/// The lists of an accepted call.
#[derive(Clone, Debug, Default, PartialEq, Eq)]
pub struct Listing {
    pub text: Vec<u8>,
    pub token_ends: Vec<u32>,
    pub token_kinds: Vec<u8>,
    pub line_addresses: Vec<u64>,
    pub line_marks: Vec<u16>,
    /// For each line the place of its block in the record (#107).
    pub line_places: Vec<u16>,
    pub line_ends: Vec<u32>,
    /// What each line was written for; not a list of a call.
    pub origins: Vec<Origin>,
    /// How many lines a request of document 02 leaves to the amended Rust.
    pub amended: usize,
    /// How many of these are of a record with bits 16.
    pub amended_16: usize,
    /// The lines, by number, that #101 adds to the unchanged Rust's. With bits 16 that one is not asked, and none counts as added.
    pub added: Vec<usize>,
}

/// What a line was written for: a block by its place, an instruction by its number.
#[derive(Clone, Copy, Debug, PartialEq, Eq)]
pub enum Origin {
    Label(usize),
    Do(usize),
    Close,
    Open(usize),
    While(usize),
    Instruction(usize),
}

/// What the port lists of an accepted record's range: the Rust's lines, where a request of document 02 departs or adds a line the amended
/// one's; or the message of a panic.
pub fn list(bytes: &[u8], from: usize, to: usize) -> Result<Listing, String> {
    list_record(&Record::parse(bytes), from, to)
}

/// What the program `listing` prints for this input, or the message of the Rust's panic.
pub fn program(input: &[u8]) -> Result<Vec<u8>, String> {
    Ok(program_lists(input)?.map_or_else(refusal, |listing| listing.print()))
}

/// The listing that the program `listing` prints, or the number of its refusal; or the message of the Rust's panic.
pub fn program_lists(input: &[u8]) -> Result<Result<Listing, u8>, String> {
    let bytes = &input[..input.len().min(MOST_INPUT + 1)];
    let blocks = if bytes.len() >= HEADER { Layout::of(bytes).b } else { 0 };
    let no = questions::first_no(bytes, 0, blocks);
    if no != 0 {
        return Ok(Err(no));
    }
    let listing = list(bytes, 0, blocks)?;
    Ok(match (listing.text.len() > MOST_TEXT, listing.token_ends.len() > MOST_TOKENS) {
        (true, _) => Err(12),
        (_, true) => Err(13),
        _ => Ok(listing),
    })
}

pub fn refusal(number: u8) -> Vec<u8> {
    format!("no {number}\n").into_bytes()
}

pub fn list_record(record: &Record, from: usize, to: usize) -> Result<Listing, String> {
    lines_of(record, || with_amended(record, || emitter::run(record, from, to), plain(amended::run(record, from, to))))
}

/// The unchanged Rust's listing, which its mutants are compared with.
pub fn unchanged(record: &Record, from: usize, to: usize) -> Result<Listing, String> {
    lines_of(record, || emitter::run(record, from, to))
}

/// The first block's instructions, without structure.
pub fn list_insns(record: &Record) -> Result<Listing, String> {
    lines_of(record, || with_amended(record, || emitter::insns(record), plain(amended::insns(record))))
}

/// The amended Rust's lines as the emitter's.
fn plain((lines, tag): (Vec<amended::PseudoLine>, u64)) -> (Vec<PseudoLine>, u64) {
    (lines.into_iter().map(|l| PseudoLine { address: l.address, indent: l.indent, tokens: l.tokens }).collect(), tag)
}

/// The amended Rust's listing alone, to see where the merged one differs from it.
#[cfg(test)]
pub fn amended_alone(record: &Record, from: usize, to: usize) -> Result<Listing, String> {
    lines_of(record, || plain(amended::run(record, from, to)))
}

/// The merged listing if the amended Rust's lines were changed so, to see which changes are refused.
#[cfg(test)]
pub fn list_changed(record: &Record, change: impl Fn(&mut Vec<PseudoLine>)) -> Result<Listing, String> {
    let to = record.blocks.len();
    lines_of(record, || {
        let (mut amended, tag) = plain(amended::run(record, 0, to));
        change(&mut amended);
        with_amended(record, || emitter::run(record, 0, to), (amended, tag))
    })
}

/// The Rust's lines in their order, with the amended one's in the place of those that depart, and between them those that #101 adds; all of
/// the amended one's where a whole record departs, since other instructions are silent there.
fn with_amended(
    record: &Record,
    rust: impl Fn() -> (Vec<PseudoLine>, u64),
    amended: (Vec<PseudoLine>, u64),
) -> (Vec<PseudoLine>, u64) {
    if departures::whole(record) {
        return amended;
    }
    let (rust, tag) = rust();
    let origins: Vec<Origin> = rust.iter().map(|l| origin(record, l, tag)).collect();
    let added = departures::added(record, &loops(record, &origins));
    let departs = departures::lines(record);
    let is_one_of = |marked: &[bool], line: &PseudoLine| number(line, tag).is_some_and(|n| marked[n]);
    let (new, old): (Vec<&PseudoLine>, Vec<&PseudoLine>) = amended.0.iter().partition(|l| is_one_of(&added, l));
    assert!(
        new.iter().filter_map(|l| number(l, tag)).eq((0..added.len()).filter(|n| added[*n])),
        "the amended Rust does not add one line for each jump that #101 names"
    );
    assert!(
        old.iter().map(|l| (l.address, l.indent)).eq(rust.iter().map(|l| (l.address, l.indent))),
        "the amended Rust has other lines than the unchanged one beside those that #101 adds"
    );
    let mut rust = rust.into_iter();
    let merged = amended.0.into_iter().map(|amended| match is_one_of(&added, &amended) {
        true => amended,
        false => rust.next().filter(|l| !is_one_of(&departs, l)).unwrap_or(amended),
    });
    (merged.collect(), tag)
}

/// The do-loops of a listing, first and last place each. A do-body is flat, so the while-lines close the do-lines in turn.
fn loops(record: &Record, origins: &[Origin]) -> Vec<(usize, usize)> {
    let firsts = origins.iter().filter_map(|o| if let Origin::Do(place) = o { Some(*place) } else { None });
    let lasts = origins.iter().filter_map(|o| if let Origin::While(n) = o { Some(record.place_of(*n)) } else { None });
    firsts.zip(lasts).collect()
}

/// The lists of the lines that the emitter, or a mutant of it, writes.
pub fn lines_of(record: &Record, run: impl Fn() -> (Vec<PseudoLine>, u64)) -> Result<Listing, String> {
    QUIET.set(true);
    let done = catch_unwind(AssertUnwindSafe(|| {
        let (lines, tag) = run();
        lists(record, &lines, tag)
    }));
    QUIET.set(false);
    done.map_err(message)
}

thread_local! {
    /// The Rust runs: its panics are answers and print nothing.
    static QUIET: Cell<bool> = const { Cell::new(false) };
}

/// Keeps the Rust's panics from printing; those of the oracle itself still do.
pub fn report_panics_as_answers() {
    let usual = std::panic::take_hook();
    std::panic::set_hook(Box::new(move |info| {
        if !QUIET.get() {
            usual(info);
        }
    }));
}

fn message(e: Box<dyn std::any::Any + Send>) -> String {
    match e.downcast::<String>() {
        Ok(s) => *s,
        Err(e) => e.downcast_ref::<&str>().unwrap_or(&"panic").to_string(),
    }
}

fn lists(record: &Record, lines: &[PseudoLine], tag: u64) -> Listing {
    let addresses: Vec<u64> = record.insns().map(|i| i.address).collect();
    let mut out = Listing { origins: lines.iter().map(|l| origin(record, l, tag)).collect(), ..Listing::default() };
    out.line_places = places(record, &out.origins);
    for (line, origin) in lines.iter().zip(&out.origins) {
        for token in &line.tokens {
            out.text.extend(token.t.as_bytes());
            out.token_ends.push(out.text.len() as u32);
            out.token_kinds.push(token.k as u8);
        }
        out.line_addresses.push(match *origin {
            Origin::Label(place) | Origin::Do(place) => record.blocks[place].start,
            Origin::Open(n) | Origin::While(n) | Origin::Instruction(n) => addresses[n],
            Origin::Close => 0,
        });
        out.line_marks.push(line.indent as u16 + if line.address.is_some() { 256 } else { 0 });
        out.line_ends.push(out.token_ends.len() as u32);
    }
    count_amended(record, lines, tag, &mut out);
    out
}

/// #107: "a label, an instruction or an opening line that of the block it was written for, a closing brace that of the block whose branch
/// opened it, a while-line that of the loop's last block", the block of its closing test. A lone brace closes the latest opening line still open.
fn places(record: &Record, origins: &[Origin]) -> Vec<u16> {
    let mut open = Vec::new();
    let place = |origin: &Origin| {
        let place = match *origin {
            Origin::Label(place) | Origin::Do(place) => place,
            Origin::Open(n) | Origin::While(n) | Origin::Instruction(n) => record.place_of(n),
            Origin::Close => open.pop().expect("a brace closes an opening line"),
        };
        if matches!(origin, Origin::Open(_)) {
            open.push(place);
        }
        place as u16
    };
    origins.iter().map(place).collect()
}

/// Which of the lines are the amended Rust's.
fn count_amended(record: &Record, lines: &[PseudoLine], tag: u64, out: &mut Listing) {
    if departures::whole(record) {
        out.amended = out.lines();
        out.amended_16 = out.lines();
        return;
    }
    let departs = departures::lines(record);
    let added = departures::added(record, &loops(record, &out.origins));
    for (line, n) in lines.iter().enumerate().filter_map(|(line, l)| Some((line, number(l, tag)?))) {
        out.amended += usize::from(departs[n] || added[n]);
        if added[n] {
            out.added.push(line);
        }
    }
}

/// The number of the instruction that a line was written for. Only such lines have a tagged address.
fn number(line: &PseudoLine, tag: u64) -> Option<usize> {
    line.address.filter(|a| a >> 48 == tag >> 48).map(|a| (a - tag) as usize)
}

/// Only a lone closing brace has no address. Names may have any text, so kinds are asked too.
fn origin(record: &Record, line: &PseudoLine, tag: u64) -> Origin {
    let Some(address) = line.address else { return Origin::Close };
    let first = &line.tokens[0];
    let last = &line.tokens[line.tokens.len() - 1];
    let Some(n) = number(line, tag) else {
        let place = record.blocks.iter().position(|b| b.start == address).expect("a block's line");
        return if first.k == TokenKind::Keyword { Origin::Do(place) } else { Origin::Label(place) };
    };
    match (first.k, first.t.as_str()) {
        (TokenKind::Punct, "} ") => Origin::While(n),
        (TokenKind::Keyword, "if") if last.t.ends_with('{') => Origin::Open(n),
        _ => Origin::Instruction(n),
    }
}

impl Listing {
    pub fn lines(&self) -> usize {
        self.line_ends.len()
    }

    /// Text bytes, tokens, lines.
    pub fn sizes(&self) -> [usize; 3] {
        [self.text.len(), self.token_ends.len(), self.lines()]
    }

    /// A line's tokens: kind and text.
    pub fn tokens(&self, n: usize) -> impl Iterator<Item = (u8, &[u8])> {
        let first = if n == 0 { 0 } else { self.line_ends[n - 1] as usize };
        let start = |t: usize| if t == 0 { 0 } else { self.token_ends[t - 1] as usize };
        (first..self.line_ends[n] as usize).map(move |t| (self.token_kinds[t], &self.text[start(t)..self.token_ends[t] as usize]))
    }

    /// The text of a line.
    pub fn line(&self, n: usize) -> &[u8] {
        let end = |tokens: usize| if tokens == 0 { 0 } else { self.token_ends[tokens - 1] as usize };
        let first = if n == 0 { 0 } else { self.line_ends[n - 1] as usize };
        &self.text[end(first)..end(self.line_ends[n] as usize)]
    }

    /// The first list that differs, in words. Origins are not compared.
    pub fn difference(&self, other: &Listing) -> Option<String> {
        first_apart("text", &self.text, &other.text)
            .or_else(|| first_apart("token ends", &self.token_ends, &other.token_ends))
            .or_else(|| first_apart("token kinds", &self.token_kinds, &other.token_kinds))
            .or_else(|| first_apart("line addresses", &self.line_addresses, &other.line_addresses))
            .or_else(|| first_apart("line marks", &self.line_marks, &other.line_marks))
            .or_else(|| first_apart("line places", &self.line_places, &other.line_places))
            .or_else(|| first_apart("line ends", &self.line_ends, &other.line_ends))
    }

    /// What the program `listing` prints.
    pub fn print(&self) -> Vec<u8> {
        let mut out = format!("lines={}\n", self.lines()).into_bytes();
        for n in 0..self.lines() {
            let mark = self.line_marks[n];
            match mark >= 256 {
                true => out.extend(format!("{:016X} ", self.line_addresses[n]).as_bytes()),
                false => out.extend(b"---------------- "),
            }
            out.extend(std::iter::repeat_n(b' ', 2 * (mark % 256) as usize));
            out.extend(self.line(n));
            out.push(b'\n');
        }
        out
    }
}

fn first_apart<T: PartialEq + std::fmt::Debug>(what: &str, a: &[T], b: &[T]) -> Option<String> {
    let at = (0..a.len().max(b.len())).find(|&n| a.get(n) != b.get(n))?;
    Some(format!("{what} differ at {at}: {:?} and {:?}, lengths {} and {}", a.get(at), b.get(at), a.len(), b.len()))
}
