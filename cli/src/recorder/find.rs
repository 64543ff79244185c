//! Where routines start: what the file says, and what its routines call, point to and jump to.

use std::collections::{BTreeMap, BTreeSet, HashSet};

use super::blocks::Followed;
use super::decode::Decoder;
use super::extent::{Extents, Origin, Starts};
use super::model::{kind, mnemonic as m, Flow, Insn};
use super::pe::{Image, NAMES};

/// Starts that are found at most.
const STARTS: usize = 65_536;
/// Instructions that are followed at most to find starts, and again to record; a file of more bytes has as many as it has bytes.
const BUDGET: usize = 100_000;

/// How often routines are followed again at most, with the starts that were found since.
const ROUNDS: usize = 32;
/// Instructions that are looked at where an address may be a routine's.
const PROBED: usize = 8;

/// The starts that the file itself names.
fn named(image: &Image) -> Starts {
    let unwind = image.unwind.iter().filter(|part| part.begin == part.routine).map(|part| part.begin);
    let starts = image.entry.into_iter().chain(image.names.keys().copied()).chain(image.nameless.iter().copied()).chain(unwind);
    let mut out = Starts::default();
    starts.filter(|a| image.runs_at(*a)).take(STARTS).for_each(|a| {
        out.put(a, Origin::Named);
    });
    out.is_cut_short = image.unwind.len() >= NAMES;
    out
}

pub fn budget(file: &[u8]) -> usize {
    file.len().max(BUDGET)
}

/// Every start by rising address.
pub fn starts(image: &Image, decoder: &Decoder, budget: usize) -> Starts {
    let starts = named(image);
    let work = starts.origins().rev().map(|(start, _)| start).collect();
    let (probed, reached, met) = (BTreeSet::new(), HashSet::new(), BTreeMap::new());
    let mut search = Search { image, decoder, starts, budget, work, probed, reached, met };
    search.follow_rounds();
    search.follow_pointers();
    search.follow_rounds();
    search.starts.is_cut_short |= search.budget == 0 || search.starts.len() >= STARTS;
    search.starts
}

struct Search<'a> {
    image: &'a Image<'a>,
    decoder: &'a Decoder,
    starts: Starts,
    budget: usize,
    work: Vec<u64>,
    /// Addresses that were tried as routines that are pointed to.
    probed: BTreeSet<u64>,
    /// Addresses of instructions that were followed.
    reached: HashSet<u64>,
    met: BTreeMap<u64, Met>,
}

/// What was met in the routine that begins at a start.
struct Met {
    /// The first address behind the start where a routine was known to begin.
    next: u64,
    insns: Vec<u64>,
    /// Targets of jumps and branches out of it.
    jumps: Vec<u64>,
}

impl Search<'_> {
    /// Follows what is known, again where a routine is cut since, and then what is only jumped to.
    fn follow_rounds(&mut self) {
        for _ in 0..ROUNDS {
            self.follow_all();
            self.work = self.cut();
            if self.work.is_empty() {
                self.put_jumped();
            }
            if self.work.is_empty() {
                return;
            }
        }
    }

    /// Routines that only data points to. Each is followed before the next is tried, so that the cases of its tables are no routines.
    fn follow_pointers(&mut self) {
        for address in self.image.pointers() {
            if !self.reached.contains(&address) && self.may_start(address) {
                self.put(address, Origin::Pointed);
                self.follow_all();
            }
        }
    }

    fn follow_all(&mut self) {
        while let Some(start) = self.work.pop().filter(|_| self.budget > 0) {
            self.follow(start);
        }
    }

    fn extents(&self) -> Extents<'_> {
        Extents { image: self.image, decoder: self.decoder, starts: &self.starts }
    }

    fn follow(&mut self, start: u64) {
        let next = self.extents().next_start(start);
        let followed = self.extents().followed(start).1;
        self.budget = self.budget.saturating_sub(followed.steps);
        let insns: Vec<u64> = followed.insns().map(|i| i.address).collect();
        let jumps = followed.jumps.iter().chain(&followed.branches).chain(&followed.outer_cases).copied().collect();
        self.reached.extend(&insns);
        self.met.insert(start, Met { next, insns, jumps });
        let calls: Vec<u64> = followed.calls.iter().copied().filter(|a| self.image.runs_at(*a)).collect();
        calls.into_iter().for_each(|a| self.put(a, Origin::Called));
        let pointed = self.pointed(&followed);
        pointed.into_iter().for_each(|a| self.put(a, Origin::Pointed));
    }

    /// Starts of routines in which another was found since they were followed.
    fn cut(&self) -> Vec<u64> {
        let is_cut = |start: u64, met: &Met| {
            let next = self.extents().next_start(start);
            next < met.next && met.insns.last().is_some_and(|last| next <= *last)
        };
        self.met.iter().filter(|(start, met)| is_cut(**start, met)).map(|(start, _)| *start).collect()
    }

    /// Targets of jumps that are in no routine, and that the unwind table has in none, are starts.
    fn put_jumped(&mut self) {
        let reached: HashSet<u64> = self.met.values().flat_map(|met| &met.insns).copied().collect();
        let jumps: BTreeSet<u64> = self.met.values().flat_map(|met| &met.jumps).copied().collect();
        let unknown = |a: &u64| self.image.runs_at(*a) && self.image.part(*a).is_none() && !reached.contains(a);
        let found: Vec<u64> = jumps.into_iter().filter(unknown).collect();
        found.into_iter().for_each(|a| self.put(a, Origin::Jumped));
    }

    fn put(&mut self, address: u64, origin: Origin) {
        let fits = self.starts.len() < STARTS || self.starts.has(address);
        if fits && self.starts.put(address, origin) {
            self.work.push(address);
        }
    }

    /// Routines whose address an instruction takes, such as a driver's dispatch routines: code where a routine may begin. Each address is
    /// tried once.
    fn pointed(&mut self, followed: &Followed) -> Vec<u64> {
        let mut out = Vec::new();
        for address in followed.insns().filter_map(|i| taken(self.image, i)) {
            if self.may_start(address) {
                out.push(address);
            }
        }
        out
    }

    /// Whether an address that is in no known routine looks like a routine's start.
    fn may_start(&mut self, address: u64) -> bool {
        let unknown = self.image.runs_at(address) && self.image.part(address).is_none();
        unknown && self.probed.len() < STARTS && self.probed.insert(address) && self.is_code(address)
    }

    /// Whether a routine may begin here: its first instructions decode, and are no zeros.
    fn is_code(&self, address: u64) -> bool {
        let mut at = address;
        for _ in 0..PROBED {
            let Some(bytes) = self.image.bytes_at(at).filter(|b| !b.starts_with(&[0, 0])) else { return false };
            let Some(decoded) = self.decoder.decode(bytes, at).filter(|d| d.problem.is_none()) else { return false };
            if matches!(decoded.insn.flow(), Flow::Stop | Flow::Jump(_)) {
                break;
            }
            at = decoded.insn.end();
        }
        self.image.may_begin(address)
    }
}

/// The address that an instruction takes.
fn taken(image: &Image, insn: &Insn) -> Option<u64> {
    let immediate = insn.operands.iter().take(insn.count.into()).find(|o| matches!(o.kind, kind::IMM32 | kind::IMM64));
    match insn.mnemonic {
        m::LEA => insn.fixed_memory(),
        m::MOV | m::PUSH if image.may_name(insn.address, insn.end()) => immediate.map(|o| o.number),
        _ => None,
    }
}
