//! Jump tables: where an indirect jump goes, if what runs before it says so.

use std::collections::{BTreeMap, BTreeSet, VecDeque};

use super::blocks::Followed;
use super::model::{mnemonic as m, register as r, Flow, Insn};
use super::pe::Image;
use super::values::{Outcome, Value, Values, ENTRIES, KEPT};

/// Instructions before a jump that are looked at on one path.
const LENGTH: usize = 128;
/// Paths to a jump that are looked at.
const PATHS: usize = 32;

/// A routine's instructions, as far as they are known, and what runs before each.
pub struct Tables<'a> {
    image: &'a Image<'a>,
    insns: &'a BTreeMap<u64, Insn>,
    /// Whether an address lies in the routine.
    inside: &'a dyn Fn(u64) -> bool,
    /// Branches by their target.
    branches: BTreeMap<u64, Vec<u64>>,
    /// Registers that hold the same wherever the routine uses them.
    known: [Option<Value>; 16],
}

impl<'a> Tables<'a> {
    pub fn new(image: &'a Image<'a>, followed: &'a Followed, start: u64, inside: &'a dyn Fn(u64) -> bool) -> Tables<'a> {
        let (insns, cases) = (&followed.insns, &followed.cases);
        let mut branches: BTreeMap<u64, Vec<u64>> = BTreeMap::new();
        for insn in insns.values() {
            if let Flow::Branch(to) | Flow::Odd(to) | Flow::Jump(Some(to)) = insn.flow() {
                branches.entry(to).or_default().push(insn.address);
            }
        }
        for (from, targets) in cases {
            targets.iter().for_each(|to| branches.entry(*to).or_default().push(*from));
        }
        Tables { image, insns, inside, known: Known { start, insns, branches: &branches }.values(), branches }
    }

    /// The targets of an indirect jump, each once and by rising address; empty if table or bound is not found. Each path that says a bound
    /// counts, since a path may know more of the index than that it is within the table. Adds the instructions that were gone over.
    pub fn targets(&self, jump: &Insn, steps: &mut usize) -> Vec<u64> {
        let (mut found, mut unbounded) = (BTreeSet::new(), None);
        let mut paths = VecDeque::from([vec![jump.address]]);
        for _ in 0..PATHS {
            let Some(mut path) = paths.pop_front() else { break };
            let before = self.extend(&mut path);
            *steps += path.len();
            match self.evaluate(jump, &path) {
                Outcome::Targets(targets) => {
                    found.extend(targets);
                    continue;
                }
                Outcome::NoTable => continue,
                Outcome::Unbounded(at) => unbounded = Some(at),
                Outcome::Open => {}
            }
            paths.extend(before.into_iter().map(|a| [&path[..], &[a]].concat()));
        }
        if let Some(at) = unbounded.filter(|_| found.is_empty()) {
            *steps += self.insns.len();
            found.extend(self.unbounded(at));
        }
        found.into_iter().collect()
    }

    /// The entries of a table whose bound nothing says: as long as the file relocates them, they are addresses in the routine, and no
    /// instruction names another table there. So each entry is a label of the routine, though perhaps of the table behind.
    fn unbounded(&self, at: u64) -> Vec<u64> {
        let named: BTreeSet<u64> = self.insns.values().map(|i| i.memory).collect();
        let width = u64::from(self.image.bits / 8);
        let places = (0..ENTRIES).map(|n| at.wrapping_add(width * n));
        let own = places.take_while(|a| self.image.is_relocated(*a) && (*a == at || !named.contains(a)));
        own.map_while(|a| self.image.word(a)).take_while(|a| (self.inside)(*a)).collect()
    }

    /// Goes back on a path as long as there is one way, and says which there are then. The path has its last instruction first.
    fn extend(&self, path: &mut Vec<u64>) -> Vec<u64> {
        while path.len() < LENGTH {
            let mut before = self.before(path[path.len() - 1]);
            before.retain(|a| !path.contains(a));
            match before[..] {
                [one] => path.push(one),
                _ => return before,
            }
        }
        Vec::new()
    }

    /// What an instruction comes after: what runs into it, then branches.
    fn before(&self, address: u64) -> Vec<u64> {
        let runs = |i: &&Insn| i.end() == address && !matches!(i.flow(), Flow::Jump(_) | Flow::Stop);
        let above = self.insns.range(..address).next_back().map(|(_, i)| i).filter(runs);
        let branches = self.branches.get(&address).into_iter().flatten().take(PATHS);
        above.map(|i| i.address).into_iter().chain(branches.copied()).collect()
    }

    fn evaluate(&self, jump: &Insn, path: &[u64]) -> Outcome {
        let mut values = Values::new(self.image, &self.known);
        for (n, address) in path.iter().enumerate().skip(1).rev() {
            values.step(&self.insns[address], path[n - 1]);
        }
        values.targets(jump)
    }
}

/// What registers that a callee saves hold in the whole routine, since they are written once. So it is known in loops too, far from where
/// it is written. Pops restore what the caller had.
struct Known<'a> {
    start: u64,
    insns: &'a BTreeMap<u64, Insn>,
    branches: &'a BTreeMap<u64, Vec<u64>>,
}

impl Known<'_> {
    fn values(&self) -> [Option<Value>; 16] {
        let mut writers: [Vec<&Insn>; 16] = Default::default();
        for insn in self.insns.values().filter(|i| i.mnemonic != m::POP) {
            if let Some(family) = written(insn) {
                writers[family].push(insn);
            }
        }
        let mut out = [None; 16];
        for family in KEPT {
            let [insn] = writers[family][..] else { continue };
            let from = insn.register(1).and_then(r::family).map(usize::from);
            out[family] = match (insn.mnemonic, from) {
                (m::LEA, _) => insn.fixed_memory().map(Value::number),
                (m::MOV | m::MOVZX | m::MOVSXD, Some(from)) if KEPT.contains(&from) && writers[from].len() == 1 => {
                    Some(Value::register(from))
                }
                (m::MOV | m::MOVSXD, Some(from)) if self.is_argument(from, insn.address) => Some(Value::argument(from)),
                _ => None,
            };
        }
        out
    }

    /// Whether a register still holds what the caller passed: nothing from the start to the address writes it, calls or is a loop.
    fn is_argument(&self, family: usize, address: u64) -> bool {
        let keeps = |i: &Insn| written(i) != Some(family) && i.mnemonic != m::CALL;
        let forward = |(to, from): (&u64, &Vec<u64>)| from.iter().all(|from| from < to);
        self.start <= address
            && self.insns.range(self.start..address).take(LENGTH).all(|(_, i)| keeps(i))
            && self.insns.range(self.start..address).take(LENGTH + 1).count() <= LENGTH
            && self.branches.range(self.start..=address).all(forward)
    }
}

/// The register that an instruction names first and writes.
fn written(insn: &Insn) -> Option<usize> {
    let writes = !matches!(insn.mnemonic, m::CMP | m::TEST | m::BT | m::PUSH);
    insn.register(0).filter(|_| writes).and_then(r::family).map(usize::from)
}
