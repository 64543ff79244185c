//! A routine's blocks and edges, by following its branches.

use std::collections::{BTreeMap, BTreeSet};

use super::decode::Decoder;
use super::frame;
use super::model::{edge, mnemonic as m, Block, Edge, Flow, Insn};
use super::pe::Image;
use super::tables::Tables;
use super::Unrecorded;

/// Instructions of one routine that are followed at most: more than a record holds, so that calls in a large one are found too.
const FOLLOWED: usize = 20_000;
/// Indirect jumps of one routine whose tables are searched at most; more than a record holds blocks.
const JUMPS: usize = 256;
/// So many instructions are gone over to find a table in the time in which one is decoded, or more.
const LIGHT: usize = 4;
/// How often the tables of a routine's indirect jumps are searched at most; a case may have a jump through a table of its own.
const ROUNDS: usize = 8;

/// What following a routine came to.
#[derive(Default)]
pub struct Followed {
    pub insns: BTreeMap<u64, Insn>,
    leaders: BTreeSet<u64>,
    /// Targets of jumps through tables, by the jump's address.
    pub cases: BTreeMap<u64, Vec<u64>>,
    pub problem: Option<Unrecorded>,
    /// What it took: instructions that were decoded, and a part of those that were gone over to find tables.
    pub steps: usize,
    /// Targets of calls, and of jumps and conditional branches out of the routine.
    pub calls: BTreeSet<u64>,
    pub jumps: BTreeSet<u64>,
    pub branches: BTreeSet<u64>,
    /// Targets of jumps through tables that are outside of the routine.
    pub outer_cases: BTreeSet<u64>,
    /// Whether it runs on behind its end, other than from a call, which may not return.
    pub runs_on: bool,
}

impl Followed {
    pub fn insns(&self) -> impl Iterator<Item = &Insn> {
        self.insns.values()
    }
}

pub struct Follower<'a> {
    pub image: &'a Image<'a>,
    pub decoder: &'a Decoder,
    pub start: u64,
    /// Where the routine lies: first addresses and those behind, rising and apart.
    pub ranges: Vec<(u64, u64)>,
    /// Where it goes on after an exception.
    pub handlers: Vec<u64>,
}

impl Follower<'_> {
    pub fn follow(&self) -> Followed {
        let mut out = Followed::default();
        let mut work = self.handlers.clone();
        work.push(self.start);
        for _ in 0..=ROUNDS {
            self.follow_all(&mut work, &mut out);
            work = self.search_tables(&mut out);
            if work.is_empty() {
                break;
            }
        }
        out.steps = out.steps / LIGHT + out.insns.len().max(1);
        let insns = &out.insns;
        out.leaders.retain(|a| insns.contains_key(a));
        out
    }

    fn follow_all(&self, work: &mut Vec<u64>, out: &mut Followed) {
        while let Some(address) = work.pop() {
            if self.is_inside(address) && out.leaders.insert(address) {
                self.run(address, out, work);
            }
        }
    }

    /// The targets of indirect jumps that have none so far.
    fn search_tables(&self, out: &mut Followed) -> Vec<u64> {
        let open = out.cases.iter().filter(|(_, to)| to.is_empty()).take(JUMPS).filter_map(|(a, _)| out.insns.get(a));
        let open: Vec<Insn> = open.copied().collect();
        if open.is_empty() {
            return Vec::new();
        }
        let inside = |a| self.is_inside(a);
        let (tables, mut steps) = (Tables::new(self.image, out, self.start, &inside), 0);
        let mut found: Vec<(u64, Vec<u64>)> = open.iter().map(|jump| (jump.address, tables.targets(jump, &mut steps))).collect();
        out.steps += steps;
        out.outer_cases.extend(found.iter().flat_map(|(_, targets)| targets).filter(|a| !self.is_inside(**a)));
        found.iter_mut().for_each(|(_, targets)| targets.retain(|a| self.is_inside(*a)));
        let targets = found.iter().flat_map(|(_, targets)| targets).copied().collect();
        out.cases.extend(found);
        targets
    }

    fn is_inside(&self, address: u64) -> bool {
        let n = self.ranges.partition_point(|(first, _)| *first <= address);
        self.ranges[..n].last().is_some_and(|(_, end)| address < *end)
    }

    /// Follows what runs on from an address, to where it does not or is known.
    fn run(&self, first: u64, out: &mut Followed, work: &mut Vec<u64>) {
        let mut run: Vec<Insn> = Vec::new();
        let mut address = first;
        while self.is_inside(address) {
            if out.insns.contains_key(&address) {
                out.leaders.insert(address);
                return;
            }
            if out.insns.len() >= FOLLOWED {
                out.problem.get_or_insert(Unrecorded::Limit(format!("more than {FOLLOWED} instructions")));
                return;
            }
            let Some(insn) = self.decode(address, &run, out) else { return };
            out.insns.insert(address, insn);
            run.push(insn);
            if self.branch(&run, out, work) {
                return;
            }
            address = insn.end();
        }
        out.runs_on |= run.iter().rev().find(|i| !is_filler(i)).is_some_and(|i| i.mnemonic != m::CALL);
    }

    /// The instruction at an address. What does not decode is no part of the routine if a call and padding stand before: the call does not
    /// return.
    fn decode(&self, address: u64, run: &[Insn], out: &mut Followed) -> Option<Insn> {
        let bytes = self.image.bytes_at(address).unwrap_or(&[]);
        let Some(decoded) = self.decoder.decode(bytes, address) else {
            let padded = run.last().is_some_and(is_filler);
            let called = run.iter().rev().find(|i| !is_filler(i)).is_some_and(|i| i.mnemonic == m::CALL);
            if !(padded && called) {
                out.problem.get_or_insert(Unrecorded::Other(format!("bytes at {address:x} that do not decode")));
            }
            return None;
        };
        if let Some(problem) = decoded.problem {
            out.problem.get_or_insert(Unrecorded::Other(format!("at {address:x} {problem}")));
        }
        Some(decoded.insn)
    }

    /// Notes where the run's last instruction goes, and whether the run ends with it.
    fn branch(&self, run: &[Insn], out: &mut Followed, work: &mut Vec<u64>) -> bool {
        let Some(insn) = run.last() else { return true };
        match insn.flow() {
            Flow::Next => return insn.mnemonic == m::INT3 && self.is_trap(run),
            Flow::Call(target) => {
                // A call of what follows only asks where it is.
                out.calls.extend(target.filter(|a| *a != insn.end()));
                return false;
            }
            Flow::Branch(target) | Flow::Odd(target) => {
                self.branch_to(target, out, work);
                if self.is_inside(insn.end()) {
                    out.leaders.insert(insn.end());
                }
                return false;
            }
            Flow::Jump(Some(target)) if self.is_inside(target) => work.push(target),
            Flow::Jump(Some(target)) => {
                out.jumps.insert(target);
            }
            Flow::Jump(None) => {
                if insn.fixed_memory().is_none() {
                    out.cases.insert(insn.address, Vec::new());
                }
            }
            Flow::Stop => {}
        }
        true
    }

    fn branch_to(&self, target: u64, out: &mut Followed, work: &mut Vec<u64>) {
        if self.is_inside(target) {
            work.push(target);
        } else {
            out.branches.insert(target);
        }
    }

    /// Whether an int3 stands where nothing goes on: behind a call that does not return, or before another.
    fn is_trap(&self, run: &[Insn]) -> bool {
        let called = run.len() > 1 && run[run.len() - 2].mnemonic == m::CALL;
        let after = run.last().and_then(|i| self.image.bytes_at(i.end()));
        called || after.map_or(true, |b| b[0] == 0xcc)
    }

    /// The blocks by address, the routine's start first. No branch goes to a handler, and a label shows that something else does.
    pub fn blocks(&self, followed: &Followed) -> Vec<Block> {
        let mut blocks: Vec<Block> = followed.leaders.iter().map(|start| self.block(*start, followed)).collect();
        let wanted: BTreeSet<u64> = blocks
            .iter()
            .flat_map(|b| &b.edges)
            .filter(|e| matches!(e.kind, edge::TRUE | edge::UNCOND | edge::CASE))
            .map(|e| e.to)
            .chain(self.handlers.iter().copied())
            .collect();
        blocks.iter_mut().for_each(|b| b.label = wanted.contains(&b.start));
        let before = blocks.partition_point(|b| b.start < self.start);
        blocks.rotate_left(before);
        blocks
    }

    fn block(&self, start: u64, followed: &Followed) -> Block {
        let mut insns: Vec<Insn> = Vec::new();
        let mut address = start;
        while let Some(insn) = followed.insns.get(&address) {
            insns.push(*insn);
            address = insn.end();
            let ends = !matches!(insn.flow(), Flow::Next | Flow::Call(_));
            if ends || followed.leaders.contains(&address) || insn.mnemonic == m::INT3 && self.is_trap(&insns) {
                break;
            }
        }
        let edges = self.edges(&insns, followed);
        if edges.is_empty() {
            drop_padding(&mut insns);
        }
        Block { start, label: false, insns, edges }
    }

    fn edges(&self, insns: &[Insn], followed: &Followed) -> Vec<Edge> {
        let Some(last) = insns.last() else { return Vec::new() };
        let next = last.end();
        let goes_on = followed.leaders.contains(&next);
        let on = |kind| goes_on.then_some(Edge { to: next, kind });
        match last.flow() {
            Flow::Branch(to) => [Edge { to, kind: edge::TRUE }].into_iter().chain(on(edge::FALSE)).collect(),
            Flow::Odd(to) => [Edge { to, kind: edge::CASE }].into_iter().chain(on(edge::FALL)).collect(),
            Flow::Jump(Some(to)) if self.is_inside(to) => vec![Edge { to, kind: edge::UNCOND }],
            Flow::Jump(None) => {
                let cases = followed.cases.get(&last.address).into_iter().flatten();
                cases.map(|to| Edge { to: *to, kind: edge::CASE }).collect()
            }
            Flow::Next if last.mnemonic == m::INT3 && self.is_trap(insns) => Vec::new(),
            Flow::Next | Flow::Call(_) => on(edge::FALL).into_iter().collect(),
            Flow::Jump(Some(_)) | Flow::Stop => Vec::new(),
        }
    }
}

fn is_filler(insn: &Insn) -> bool {
    insn.mnemonic == m::NOP || frame::is_padding(insn)
}

/// Padding behind a call that does not return is no part of the routine.
fn drop_padding(insns: &mut Vec<Insn>) {
    let stays = insns.iter().rposition(|i| !is_filler(i)).unwrap_or(0);
    insns.truncate(stays + 1);
}
