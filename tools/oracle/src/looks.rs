//! How much looking is done (#111), counted a second time from the request's words. The places of a range are gone through as the Rust's
//! `emit_range` does it, and nothing is written.

#[cfg(test)]
mod tests;
pub mod totals;
#[cfg(test)]
pub mod wrong;

use std::ops::Range;

use crate::record::{edge, Block, Edge, Record};

/// What a listing's structure took: "one look for each edge read in the loop search, the entry test, the escape test and the outside test".
#[derive(Debug, Default, PartialEq, Eq)]
pub struct Looking {
    pub looks: usize,
    /// The first places of do-loops, in the order of the listing.
    pub loops: Vec<usize>,
    /// The places whose branches open if-regions, likewise.
    pub ifs: Vec<usize>,
}

/// The looks of an accepted record and a range.
pub fn looks(record: &Record, from: usize, to: usize) -> usize {
    looking(record, from, to).looks
}

pub fn looking(record: &Record, from: usize, to: usize) -> Looking {
    let mut looker = Looker { blocks: &record.blocks, done: Looking::default() };
    looker.range(from, to);
    looker.done
}

struct Looker<'a> {
    blocks: &'a [Block],
    done: Looking,
}

impl<'a> Looker<'a> {
    /// The whole range, or an if-region's, which is a range of its own.
    fn range(&mut self, from: usize, to: usize) {
        let mut place = from;
        while place < to {
            place = self.place(place, from, to);
        }
    }

    /// What is looked for at place i. Answers the next place of the same range.
    fn place(&mut self, i: usize, from: usize, to: usize) -> usize {
        if let Some(j) = self.do_loop(i, to) {
            // A do-head's label depends on the outside test alone, "outside meaning outside the loop".
            if self.blocks[i].label == 1 {
                self.jumped_to(i, i..j + 1);
            }
            self.done.loops.push(i);
            // "Its body is flat": no loop and no region is sought in it, and its other labels depend on no test.
            return j + 1;
        }
        // A plain block's label depends on the outside test only if the block is first in its range.
        if self.blocks[i].label == 1 && i == from {
            self.jumped_to(i, from..to);
        }
        let Some(t) = self.if_region(i, to) else { return i + 1 };
        self.done.ifs.push(i);
        self.range(i + 1, t);
        t
    }

    /// The last place of the do-loop at i: "The entry test is asked only for j > i".
    fn do_loop(&mut self, i: usize, to: usize) -> Option<usize> {
        let j = self.loop_search(i, to)?;
        (j > i && self.has_one_entry(i..j + 1)).then_some(j)
    }

    /// The place after the if-region that the branch of place i opens: the entry test is asked only for "an if-region's t in bounds", "the
    /// escape test only after the entry test passes".
    fn if_region(&mut self, i: usize, to: usize) -> Option<usize> {
        let target = self.blocks[i].branch_target()?;
        let t = self.blocks.iter().position(|b| b.start == target)?;
        let in_bounds = i + 1 < t && t <= to;
        (in_bounds && self.has_one_entry(i + 1..t) && !self.escapes(i + 1..t, target)).then_some(t)
    }

    /// "The loop search starts with the last block of the range being written and reads each block's edges up to the first that matches", also
    /// of a block that cannot close a loop, since its last instruction has no condition.
    fn loop_search(&mut self, i: usize, to: usize) -> Option<usize> {
        let head = self.blocks[i].start;
        let blocks = self.blocks;
        (i..to).rev().find(|j| {
            let has_edge = self.read(&blocks[*j].edges, |e| e.to == head && e.kind == edge::TRUE);
            has_edge && blocks[*j].insns.last().is_some_and(|last| last.condition != 0)
        })
    }

    /// The entry test: no edge of an outside block goes to an inside block other than the first.
    fn has_one_entry(&mut self, inside: Range<usize>) -> bool {
        let later = &self.blocks[inside.start + 1..inside.end];
        !self.read(self.edges_outside(inside), |e| later.iter().any(|b| b.start == e.to))
    }

    /// The escape test: an edge of the region goes "to an address below its first start, the target excepted".
    fn escapes(&mut self, region: Range<usize>, target: u64) -> bool {
        let first = self.blocks[region.start].start;
        self.read(self.blocks[region].iter().flat_map(|b| &b.edges), |e| e.to < first && e.to != target)
    }

    /// The outside test: an edge of an outside block goes to place i and is "not of kind Fall".
    fn jumped_to(&mut self, i: usize, inside: Range<usize>) -> bool {
        let start = self.blocks[i].start;
        self.read(self.edges_outside(inside), |e| e.to == start && e.kind != edge::FALL)
    }

    /// "The entry and outside tests read only outside blocks' edges", "in record order".
    fn edges_outside(&self, inside: Range<usize>) -> impl Iterator<Item = &'a Edge> {
        let (before, behind) = (&self.blocks[..inside.start], &self.blocks[inside.end..]);
        before.iter().chain(behind).flat_map(|b| &b.edges)
    }

    /// Reads edges up to the "first deciding edge", that one included, and counts them.
    fn read<'e>(&mut self, edges: impl IntoIterator<Item = &'e Edge>, decides: impl Fn(&Edge) -> bool) -> bool {
        let looks = &mut self.done.looks;
        edges.into_iter().inspect(|_| *looks += 1).any(decides)
    }
}
