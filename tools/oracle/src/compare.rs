//! The comparisons. Each ends with the line `WHAT: N compared, M differ`.

mod answers;
pub mod columns;
pub mod literals;
pub mod routes;
pub mod routines;
pub mod rows;
mod stored;
pub mod tables;
#[cfg(test)]
mod tests;

use std::collections::BTreeSet;
use std::path::PathBuf;

use crate::damage::{self, Call};
use crate::demand3;
use crate::gen;
use crate::lines::Forms;
use crate::listing;
use crate::lists::{self, Answer, Lists};
use crate::looks::{self, totals::Totals};
use crate::pieces::{self, Piece};
use crate::port::{self, Port};
use crate::questions;
use crate::record::{Layout, Record, HEADER};
use crate::rng::Rng;

/// A comparison takes a seed and a number of cases, and tells whether nothing differs.
pub type Comparison = fn(u64, usize) -> Result<bool, String>;

/// The comparisons by name. `tools/compare` has the same names, with the number of cases.
pub const COMPARISONS: &[(&str, Comparison)] = &[
    ("questions", questions),
    ("pieces", pieces),
    ("lines", lines),
    ("listing", whole),
    ("rows", rows::rows),
    ("literals", literals::literals),
    ("tables", tables::tables),
    ("routes", routes::routes),
    ("columns", columns::columns),
    ("routines", routines::routines),
    ("sanity", sanity),
];

/// Calls made from each valid record, itself included.
const CALLS_A_RECORD: usize = 8;

/// The bytes of a generated record.
pub fn record(seed: u64) -> Vec<u8> {
    gen::valid(&mut Rng::new(seed)).to_bytes()
}

/// Counts what was compared, and keeps the first case that differs.
struct Tally {
    what: &'static str,
    /// The name of the file that keeps the first case; without one the cases are counted alone.
    kept: Option<String>,
    compared: usize,
    differ: usize,
}

impl Tally {
    fn new(what: &'static str) -> Tally {
        Tally::keeping(what, Some(format!("{what}.record")))
    }

    fn keeping(what: &'static str, kept: Option<String>) -> Tally {
        Tally { what, kept, compared: 0, differ: 0 }
    }

    fn differs(&mut self, call: &Call, words: impl FnOnce() -> String) -> Result<(), String> {
        self.differs_in(&call.bytes, || format!("{}\n  {}", describe(call), words()))
    }

    fn differs_in(&mut self, bytes: &[u8], words: impl FnOnce() -> String) -> Result<(), String> {
        self.differ += 1;
        let Some(kept) = self.kept.as_ref().filter(|_| self.differ == 1) else { return Ok(()) };
        let file = keep(kept, bytes)?;
        println!("{}: the first that differs is kept in {}", self.what, file.display());
        println!("  {}", words());
        Ok(())
    }

    fn end(&self) -> bool {
        println!("{}: {} compared, {} differ", self.what, self.compared, self.differ);
        self.differ == 0
    }
}

/// Keeps a case in the folder that COMPARE_DIR names, or in `target/compare`.
fn keep(name: &str, bytes: &[u8]) -> Result<PathBuf, String> {
    let dir = PathBuf::from(std::env::var_os("COMPARE_DIR").unwrap_or_else(|| "target/compare".into()));
    let file = dir.join(name);
    std::fs::create_dir_all(&dir).and_then(|()| std::fs::write(&file, bytes)).map_err(|e| format!("{}: {e}", file.display()))?;
    Ok(file)
}

/// A call in words: the length, the range and the header's fields.
fn describe(call: &Call) -> String {
    let Call { bytes, from, to } = call;
    let range = format!("{} bytes, from {from} to {to}", bytes.len());
    if bytes.len() < HEADER {
        return range;
    }
    let l = Layout::of(bytes);
    let u16_at = |at: usize| u16::from_le_bytes([bytes[at], bytes[at + 1]]);
    let shift = i32::from_le_bytes(bytes[16..20].try_into().unwrap());
    format!(
        "{range}; bits {}, convention {}, B {}, I {}, E {}, A {}, S {}, frame {}, shift {shift} (mark {}), indent {}, T {}",
        u16_at(0),
        u16_at(2),
        l.b,
        l.i,
        l.e,
        l.a,
        l.s,
        u16_at(14),
        bytes[20],
        bytes[21],
        l.t
    )
}

/// What each question asks, for people, by its number and in the order of asking.
const ASKED: [(u8, &str); 13] = [
    (0, "all get a yes"),
    (1, "at least 24 bytes"),
    (2, "bits, convention, shift"),
    (3, "limits"),
    (4, "length"),
    (5, "counts and label marks"),
    (6, "block starts"),
    (7, "edge kinds"),
    (8, "instructions and registers"),
    (15, "True edges and branches"),
    (9, "atlas"),
    (10, "spans"),
    (11, "range"),
];

fn answer(n: u8) -> String {
    let asked = ASKED.iter().find(|(number, _)| *number == n);
    format!("{n} ({})", asked.map_or("no such question", |(_, what)| what))
}

/// How often each answer came.
#[derive(Default)]
struct Histogram {
    /// By the answer's number.
    answers: [usize; 16],
    sampled: usize,
    several: usize,
    /// Of these, how many break both 8 and 15, and both 15 and 9.
    around_15: [usize; 2],
}

impl Histogram {
    fn add(&mut self, n: usize, call: &Call, answer: u8) {
        self.answers[answer as usize] += 1;
        if n % 16 == 3 && answer > 0 {
            self.sampled += 1;
            let broken = questions::every_no(&call.bytes, call.from, call.to);
            self.several += usize::from(broken.len() > 1);
            for (count, beside) in self.around_15.iter_mut().zip([8, 9]) {
                *count += usize::from(broken.contains(&15) && broken.contains(&beside));
            }
        }
    }

    fn print(&self) {
        let calls: usize = self.answers.iter().sum();
        println!("first question that gets a no, of {calls} generated calls:");
        for (n, what) in ASKED {
            let count = self.answers[usize::from(n)];
            println!("  {n:2} {what:28} {count:9} {:5.1} %", 100.0 * count as f64 / calls.max(1) as f64);
        }
        let [with_8, with_9] = self.around_15;
        println!(
            "  of {} refused calls sampled, {} break more than one question, {with_8} both 8 and 15, {with_9} both 15 and 9",
            self.sampled, self.several
        );
    }
}

/// Hands on calls, valid and damaged, until so many were made.
fn each_call(seed: u64, count: usize, mut each: impl FnMut(usize, &Call) -> Result<(), String>) -> Result<(), String> {
    let mut rng = Rng::new(seed);
    let mut made = 0;
    while made < count {
        let base = damage::valid_call(&mut rng);
        each(made, &base)?;
        for k in 1..CALLS_A_RECORD.min(count - made) {
            each(made + k, &damage::damaged(&mut rng, &base))?;
        }
        made += CALLS_A_RECORD;
    }
    Ok(())
}

/// The questions of a record and a range: the port against `questions.rs`, on all small changes of one record and on
/// so many generated calls.
pub fn questions(seed: u64, count: usize) -> Result<bool, String> {
    let port = port::linked()?;
    let mut tally = Tally::new("questions");
    let mut ask = |call: &Call| {
        let ours = questions::first_no(&call.bytes, call.from, call.to);
        let theirs = (port.first_no)(&call.bytes, call.from, call.to);
        tally.compared += 1;
        if ours != theirs {
            tally.differs(call, || format!("the documents say {}, the port {}", answer(ours), answer(theirs)))?;
        }
        Ok(ours)
    };
    damage::each_small_change(|call| ask(call).map(|_| ()))?;
    let mut histogram = Histogram::default();
    each_call(seed, count, |n, call| {
        histogram.add(n, call, ask(call)?);
        Ok(())
    })?;
    histogram.print();
    Ok(tally.end())
}

/// Operands, memory operands and conditions: the port against the Rust, every piece of every instruction of generated records
/// until so many instructions were seen.
pub fn pieces(seed: u64, count: usize) -> Result<bool, String> {
    let port = port::linked()?;
    let mut rng = Rng::new(seed);
    let mut tally = Tally::new("pieces");
    let mut forms = BTreeSet::new();
    let (mut instructions, mut departing, mut of_16) = (0, 0, 0);
    while instructions < count {
        let call = damage::valid_call(&mut rng);
        let record = Record::parse(&call.bytes);
        instructions += record.insns().count();
        for Piece { first, at, what, tokens, amended } in pieces::all(&record) {
            let theirs = (port.piece_tokens)(&call.bytes, first, at, what);
            tally.compared += 1;
            departing += usize::from(amended);
            of_16 += usize::from(amended && record.bits == 16);
            forms.insert(tokens.form());
            if tokens != theirs {
                tally.differs(&call, || format!("instruction {at}, piece {what}: the Rust {tokens}, the port {theirs}"))?;
            }
        }
    }
    println!("  {instructions} instructions, {} distinct forms", forms.len());
    print_amended("pieces", departing, of_16, tally.compared);
    Ok(tally.end())
}

/// Instruction lines of records of one block: every list of the port against the Rust's `emit_insns`, until so many
/// instructions were seen.
pub fn lines(seed: u64, count: usize) -> Result<bool, String> {
    let port = port::linked()?;
    let mut rng = Rng::new(seed);
    let mut tally = Tally::new("lines");
    let mut forms = Forms::default();
    let mut seen = Seen::default();
    while forms.instructions() < count {
        let record = gen::one_block(&mut rng);
        let call = Call { bytes: record.to_bytes(), from: 0, to: 1 };
        let ours = listing::list_insns(&record).map_err(|e| format!("the Rust panics: {e}"))?;
        forms.add(&record, &ours);
        seen.add(&ours);
        tally.compared += 1;
        let want = answered(&record, 0, 1, &ours);
        let lent = Lists::lent(lists::fitting(ours.sizes()));
        if let Err(why) = sized(&call, &port, want).and_then(|()| accepted(&call, &port, lent, &ours, want)) {
            tally.differs(&call, || why)?;
        }
    }
    forms.print()?;
    print_amended("lines", seen.amended, seen.amended_16, seen.lines);
    Ok(tally.end())
}

/// Whole listings: every list of the port against the Rust's, its looks against `looks.rs`, demand 3 of what both list, and refusals of lists one
/// too short.
pub fn whole(seed: u64, count: usize) -> Result<bool, String> {
    let (tally, seen) = listings(&port::linked()?, seed, count, Tally::new("listing"))?;
    seen.print();
    Ok(tally.end())
}

/// So many calls for listings.
fn listings(port: &Port, seed: u64, count: usize, mut tally: Tally) -> Result<(Tally, Seen), String> {
    let mut rng = Rng::new(seed);
    let mut seen = Seen::default();
    for n in 0..count {
        let call = listing_call(&mut rng, n);
        tally.compared += 1;
        if let Err(why) = lists_alike(&call, port, n, &mut seen) {
            tally.differs(&call, || why)?;
        }
    }
    Ok((tally, seen))
}

/// How many were compared with the amended Rust, of records with bits 16 and of others, and how many with the unchanged one.
fn print_amended(what: &str, amended: usize, of_16: usize, all: usize) {
    let others = amended - of_16;
    println!(
        "  {what}: {amended} against the amended Rust ({of_16} with bits 16, {others} others), {} against the unchanged one",
        all - amended
    );
}

/// Call `n` of the listing comparison: valid, and now and then damaged.
pub fn listing_call(rng: &mut Rng, n: usize) -> Call {
    let valid = damage::valid_call(rng);
    if n % 8 == 7 {
        damage::damaged(rng, &valid)
    } else {
        valid
    }
}

fn lists_alike(call: &Call, port: &Port, n: usize, seen: &mut Seen) -> Result<(), String> {
    let Call { bytes, from, to } = call;
    let no = questions::first_no(bytes, *from, *to);
    if no != 0 {
        sized(call, port, Answer::refusal(no))?;
        return refused(call, port, Lists::lent(lists::fitting([64, 16, 8])), no);
    }
    let record = Record::parse(bytes);
    let ours = listing::list_record(&record, *from, *to).map_err(|e| format!("the Rust panics: {e}"))?;
    let want = answered(&record, *from, *to, &ours);
    seen.add(&ours);
    seen.looks.add(want.looks, to - from, record.layout().e)?;
    sized(call, port, want)?;
    accepted(call, port, Lists::lent(lists::fitting(ours.sizes())), &ours, want)?;
    demand3::check(&record, *from, *to, &ours)?;
    accepted(call, port, Lists::longer(ours.sizes()), &ours, want)?;
    if ours.lines() == 0 {
        return Ok(());
    }
    let (lent, no) = Lists::one_less(ours.sizes(), n % 7);
    refused(call, port, lent, no)
}

/// What both calls must answer where the Rust lists so.
fn answered(record: &Record, from: usize, to: usize, ours: &listing::Listing) -> Answer {
    Answer { no: 0, sizes: ours.sizes(), looks: looks::looks(record, from, to) }
}

/// The call for the sizes.
fn sized(call: &Call, port: &Port, want: Answer) -> Result<(), String> {
    alike("sizing", want, (port.size)(&call.bytes, call.from, call.to))
}

/// A refusal: the number, no sizes, no looks, and every list as it was lent.
fn refused(call: &Call, port: &Port, lent: Lists, no: u8) -> Result<(), String> {
    let (answer, left) = (port.list)(&call.bytes, call.from, call.to, lent.clone());
    alike("listing", Answer::refusal(no), answer)?;
    if left != lent {
        return Err(format!("no {no}, and a list was changed"));
    }
    Ok(())
}

/// A listing: the sizes, the looks, and the lists as an accepted call leaves them.
fn accepted(call: &Call, port: &Port, lent: Lists, ours: &listing::Listing, want: Answer) -> Result<(), String> {
    let (answer, left) = (port.list)(&call.bytes, call.from, call.to, lent.clone());
    alike("listing", want, answer)?;
    let want = lent.filled(ours);
    if left != want {
        return Err(first_unlike(&want, &left));
    }
    Ok(())
}

fn alike(what: &str, want: Answer, got: Answer) -> Result<(), String> {
    let said = |a: Answer| format!("{} with sizes {:?} and {} looks", a.no, a.sizes, a.looks);
    match want == got {
        true => Ok(()),
        false => Err(format!("{what}: expected {}, the port says {}", said(want), said(got))),
    }
}

/// Which list differs first, and where.
fn first_unlike(want: &Lists, got: &Lists) -> String {
    fn at<T: PartialEq + std::fmt::Debug>(name: &str, a: &[T], b: &[T]) -> Option<String> {
        let i = a.iter().zip(b).position(|(x, y)| x != y)?;
        Some(format!("{name} differs at {i}: the Rust {:?}, the port {:?}", a[i], b[i]))
    }
    let lossy = |t: &[u8]| String::from_utf8_lossy(t).into_owned();
    at("text", &want.text, &got.text)
        .map(|w| format!("{w}\n  Rust {}\n  port {}", lossy(&want.text), lossy(&got.text)))
        .or_else(|| at("token ends", &want.ends, &got.ends))
        .or_else(|| at("token kinds", &want.kinds, &got.kinds))
        .or_else(|| at("line addresses", &want.addresses, &got.addresses))
        .or_else(|| at("line marks", &want.marks, &got.marks))
        .or_else(|| at("line places", &want.places, &got.places))
        .or_else(|| at("line token ends", &want.line_ends, &got.line_ends))
        .unwrap_or_else(|| "no list differs".to_string())
}

/// Generated records are accepted and read back, the Rust lists them, and demand 3 holds of it.
pub fn sanity(seed: u64, count: usize) -> Result<bool, String> {
    let mut rng = Rng::new(seed);
    let mut tally = Tally::new("sanity");
    let mut seen = Seen::default();
    for _ in 0..count {
        let call = damage::valid_call(&mut rng);
        tally.compared += 1;
        if let Err(why) = is_sane(&call, &mut seen) {
            tally.differs(&call, || why)?;
        }
    }
    seen.print();
    Ok(tally.end())
}

fn is_sane(call: &Call, seen: &mut Seen) -> Result<(), String> {
    let Call { bytes, from, to } = call;
    let no = questions::first_no(bytes, *from, *to);
    if no != 0 {
        return Err(format!("a valid record is refused by question {}", answer(no)));
    }
    let record = Record::parse(bytes);
    if record.to_bytes() != *bytes {
        return Err("reading and writing changes the bytes".to_string());
    }
    let listing = listing::list_record(&record, *from, *to).map_err(|e| format!("the Rust panics: {e}"))?;
    seen.add(&listing);
    seen.looks.add(looks::looks(&record, *from, *to), to - from, record.layout().e)?;
    demand3::check(&record, *from, *to, &listing)
}

/// What the listings held, to see that the generator reaches every shape.
#[derive(Default)]
struct Seen {
    lines: usize,
    amended: usize,
    amended_16: usize,
    /// Of the lines that #101 adds the gotos and the tail calls.
    added: [usize; 2],
    longest: usize,
    most_lines: usize,
    most_tokens: usize,
    labels: usize,
    dos: usize,
    ifs: usize,
    deepest: u16,
    looks: Totals,
}

impl Seen {
    fn add(&mut self, listing: &listing::Listing) {
        use listing::Origin::*;
        self.lines += listing.lines();
        self.amended += listing.amended;
        self.amended_16 += listing.amended_16;
        for line in &listing.added {
            self.added[usize::from(listing.line(*line).starts_with(b"return"))] += 1;
        }
        self.most_lines = self.most_lines.max(listing.lines());
        self.longest = self.longest.max(listing.text.len());
        self.most_tokens = self.most_tokens.max(listing.token_ends.len());
        self.deepest = self.deepest.max(listing.line_marks.iter().map(|m| m % 256).max().unwrap_or(0));
        for origin in &listing.origins {
            match origin {
                Label(_) => self.labels += 1,
                Do(_) => self.dos += 1,
                Open(_) => self.ifs += 1,
                _ => {}
            }
        }
    }

    fn print(&self) {
        print_amended("lines", self.amended, self.amended_16, self.lines);
        let [gotos, calls] = self.added;
        println!("  of the others {} are lines added by #101: {gotos} gotos, {calls} tail calls", gotos + calls);
        println!("  lines {}, labels {}, do-loops {}, if-regions {}", self.lines, self.labels, self.dos, self.ifs);
        println!(
            "  at most: {} lines, {} tokens, {} text bytes in a listing, indent {}",
            self.most_lines, self.most_tokens, self.longest, self.deepest
        );
        let Totals { looks, most, ratio, met: [blocks, edges], .. } = self.looks;
        println!("  looks {looks}, at most {most} in a listing, at most {ratio:.2} × B × E ({blocks} blocks, {edges} edges)");
    }
}
