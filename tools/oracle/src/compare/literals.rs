//! Strings out of literals (#103): the port's reading against the second implementation's, on every short text, on the Rust's literals of generated
//! strings and on damaged ones.

use super::answers::{print_kinds, Answers};
use super::Tally;
use crate::emitter;
use crate::literals::{self, any, damage, texts, Literal, Reader, ADDRESS, MOST};
use crate::model::TokenKind;
use crate::port;
use crate::record::{kind, mnemonic, Block, Entry, Insn, Operand, Record};
use crate::rng::Rng;

/// How many of the bytes of `texts.rs` a text has at most.
const SHORT: usize = 5;

/// Damaged literals of each string.
const DAMAGED: usize = 8;

/// How far the lists for the bytes and the values reach behind what is lent of them.
const BEHIND: usize = 4;

/// How many values are lent at most, one more than there are.
const MOST_VALUES: usize = literals::VALUES + 1;

pub fn literals(seed: u64, count: usize) -> Result<bool, String> {
    let run = compared(port::linked()?.read_literal, SHORT, seed, count, Some("literals.txt".to_string()))?;
    run.seen.print()?;
    Ok(run.tally.end())
}

/// The comparison of every text of at most so many bytes, of so many strings, and of what is made of each. The first text that differs is
/// kept under this name, if one is given.
pub fn compared(port: Reader, short: usize, seed: u64, count: usize, kept: Option<String>) -> Result<Run, String> {
    let mut rng = Rng::new(seed);
    let mut run = Run {
        port,
        ours: Lent::default(),
        theirs: Lent::default(),
        tally: Tally::keeping("literals", kept),
        seen: Seen::default(),
    };
    texts::each_short(short, |text| run.short(text))?;
    run.seen.short = run.tally.compared;
    texts::each_escape(|text| run.text(text, 3, 3))?;
    texts::each_length(|text| run.text(text, MOST, 3))?;
    texts::each_end(|text| run.text(text, MOST, 3))?;
    run.seen.others = run.tally.compared - run.seen.short;
    for n in 0..count {
        run.string(&mut rng, n)?;
    }
    Ok(run)
}

pub struct Run {
    port: Reader,
    ours: Lent,
    theirs: Lent,
    tally: Tally,
    seen: Seen,
}

impl Run {
    pub fn differ(&self) -> usize {
        self.tally.differ
    }

    /// With lists of many lengths in turn, most of which suffice.
    fn short(&mut self, text: &[u8]) -> Result<(), String> {
        let n = self.tally.compared;
        self.text(text, [5, 0, 6, 1, 5, 2, 3][n % 7], n % (MOST_VALUES + 1))
    }

    fn text(&mut self, text: &[u8], room: usize, values: usize) -> Result<(), String> {
        self.read(ADDRESS, text, room, values).map(|_| ())
    }

    /// The Rust's literal of a generated string: it comes back, in lists of each length and as no other kind. Then what is made of it.
    fn string(&mut self, rng: &mut Rng, n: usize) -> Result<(), String> {
        let (string, wide) = (any::string(rng), n % 2 == 1);
        let text = listed(&string, wide)?;
        let length = string.len().min(MOST);
        let back = Literal { bytes: string[..length].to_vec(), wide, cut: string.len() > MOST };
        if text != literals::literal(wide, &string) || literals::string(&text).as_ref() != Some(&back) {
            return Err(format!("the second implementation has not the Rust's literal {}", text.escape_ascii()));
        }
        self.seen.string(&string, &back);
        for (room, values) in [(length, 3), (length + 3, 3), (length, n % (MOST_VALUES + 1)), (rng.below(length + 1), 3)] {
            self.read(ADDRESS, &text, room, values)?;
        }
        for room in [0, length.saturating_sub(1)] {
            self.read(ADDRESS, &text, room, rng.below(MOST_VALUES + 1))?;
        }
        for kind in other_kinds(rng, n) {
            self.read(kind, &text, rng.pick(&[0, length, MOST]), rng.below(MOST_VALUES + 1))?;
            self.seen.other_kinds += 1;
        }
        self.damaged(rng, n, &back)
    }

    fn damaged(&mut self, rng: &mut Rng, n: usize, literal: &Literal) -> Result<(), String> {
        for k in 0..DAMAGED {
            let kind = (n * DAMAGED + k) % damage::KINDS;
            let text = damage::damaged(rng, literal, kind);
            let room = if rng.percent(80) { MOST + rng.below(3) } else { rng.below(MOST) };
            let no = self.read(ADDRESS, &text, room, rng.below(MOST_VALUES + 1))?;
            self.seen.damaged[kind].add(no);
        }
        Ok(())
    }

    /// One call: the answer, and both lists with what lies behind what is lent of them. What is accepted is also written again.
    fn read(&mut self, kind: u8, text: &[u8], room: usize, values: usize) -> Result<u8, String> {
        let want = self.ours.call(literals::read, kind, text, room, values);
        let got = self.theirs.call(self.port, kind, text, room, values);
        self.tally.compared += 1;
        self.seen.answers.add(want);
        if want == 0 && !is_written(text) {
            return Err(format!("the second implementation reads {}, which it does not write", text.escape_ascii()));
        }
        if (want, &self.ours) != (got, &self.theirs) {
            let (ours, theirs) = (&self.ours, &self.theirs);
            self.tally.differs_in(text, || {
                format!(
                    "kind {kind}, {room} bytes and {values} values lent: expected {want} with {ours:x?}, the port says {got} with {theirs:x?}"
                )
            })?;
        }
        Ok(want)
    }
}

/// Lists for a call, of which a part is lent: all that lies behind it must stay as it was.
#[derive(Debug, Default, PartialEq, Eq)]
struct Lent {
    out: Vec<u8>,
    values: Vec<u64>,
}

impl Lent {
    fn call(&mut self, read: Reader, kind: u8, text: &[u8], room: usize, values: usize) -> u8 {
        self.out.clear();
        self.out.resize(room + BEHIND, 0xee);
        self.values.clear();
        self.values.resize(values + BEHIND, 0xeeee_eeee_eeee_eeee);
        read(kind, text, &mut self.out[..room], &mut self.values[..values])
    }
}

/// Whether the string that is read of a text has this text as its literal. Any byte will do for those that a cut literal does not show.
fn is_written(text: &[u8]) -> bool {
    literals::string(text).is_some_and(|Literal { mut bytes, wide, cut }| {
        bytes.extend(cut.then_some(0));
        literals::literal(wide, &bytes) == text
    })
}

/// What the unchanged Rust writes for a string: one token, of a literal's kind.
fn listed(string: &[u8], wide: bool) -> Result<Vec<u8>, String> {
    const AT: u64 = 0x5000;
    let mut insn = Insn { mnemonic: mnemonic::MOV, count: 1, ..Insn::default() };
    insn.operands[0] = Operand { kind: kind::IMM32, register: 0, number: AT };
    let record = Record {
        bits: 64,
        blocks: vec![Block { insns: vec![insn], ..Block::default() }],
        atlas: vec![Entry { address: AT, kind: if wide { 2 } else { 1 }, text: string.to_vec() }],
        spans: vec![(AT, AT)],
        ..Record::default()
    };
    match &emitter::operands(&record)[0][0][..] {
        [token] if token.k == TokenKind::Address => Ok(token.t.as_bytes().to_vec()),
        tokens => Err(format!("the Rust writes a string as {tokens:?}")),
    }
}

/// All kinds but a literal's for one string of a hundred, for the others one of them.
fn other_kinds(rng: &mut Rng, n: usize) -> Vec<u8> {
    let others: Vec<u8> = (0..=255).filter(|kind| *kind != ADDRESS).collect();
    match n % 100 {
        0 => others,
        n => vec![rng.pick(&others[..if n % 2 == 0 { 8 } else { others.len() }])],
    }
}

/// What came, so that a comparison of refusals alone would show.
struct Seen {
    short: usize,
    others: usize,
    strings: usize,
    wide: usize,
    cut: usize,
    just_fit: usize,
    other_kinds: usize,
    answers: Answers,
    /// By the kind of damage.
    damaged: [Answers; damage::KINDS],
}

impl Default for Seen {
    fn default() -> Seen {
        let none = Answers::default();
        let damaged = [none; damage::KINDS];
        Seen { short: 0, others: 0, strings: 0, wide: 0, cut: 0, just_fit: 0, other_kinds: 0, answers: none, damaged }
    }
}

impl Seen {
    fn string(&mut self, string: &[u8], literal: &Literal) {
        self.strings += 1;
        self.wide += usize::from(literal.wide);
        self.cut += usize::from(literal.cut);
        self.just_fit += usize::from(string.len() == MOST);
    }

    fn print(&self) -> Result<(), String> {
        println!(
            "  {} texts: all of at most {SHORT} of {} bytes, bare, in quotes, and in L and quotes",
            self.short,
            texts::BYTES.len()
        );
        println!(
            "  {} texts: all short escapes, all numbers of characters up to 400, all short ends behind 79 to 81 characters",
            self.others
        );
        println!(
            "  {} strings, {} of them wide, {} cut, {} of just {MOST} characters",
            self.strings, self.wide, self.cut, self.just_fit
        );
        println!("  {} calls with another kind than {ADDRESS}", self.other_kinds);
        print_kinds("damaged literals", &self.damaged, damage::name, literals::NO_LITERAL.into());
        self.answers.print("reading", &[literals::NO_LITERAL.into(), literals::NO_ROOM.into()])
    }
}
