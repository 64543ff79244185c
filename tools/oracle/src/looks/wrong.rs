//! Wrong counts of looks, each with one thing done otherwise, for the comparison to notice.

use std::ops::Range;

use crate::record::{edge, Block, Edge, Record};

/// What is done otherwise.
#[derive(Clone, Copy, Debug, PartialEq, Eq)]
pub enum Wrong {
    Nothing,
    DecidingUncounted,
    SearchFromFirst,
    SearchFromRecordsLast,
    SearchFromWholeRangesLast,
    SearchReadsOn,
    SearchOfConditionsAlone,
    SearchInLoops,
    EntryOfSelfLoops,
    EntryOutOfBounds,
    EntryReadsOn,
    EntryReadsInside,
    EntryFromBehind,
    EscapeBeforeEntry,
    EscapeReadsOn,
    EscapeReadsAll,
    OutsideOfEveryLabel,
    OutsideUnwanted,
    OutsideReadsOn,
    OutsideReadsInside,
    HeadOutsideRange,
    HeadOnlyWhereFirst,
}

use Wrong::*;

pub fn count(record: &Record, from: usize, to: usize, wrong: Wrong) -> usize {
    let mut counter = Counter { blocks: &record.blocks, end: to, wrong, looks: 0 };
    counter.range(from, to);
    counter.looks
}

struct Counter<'a> {
    blocks: &'a [Block],
    /// The end of the whole range.
    end: usize,
    wrong: Wrong,
    looks: usize,
}

impl<'a> Counter<'a> {
    fn is(&self, wrong: Wrong) -> bool {
        self.wrong == wrong
    }

    fn range(&mut self, from: usize, to: usize) {
        let mut i = from;
        while i < to {
            i = self.place(i, from, to);
        }
    }

    fn place(&mut self, i: usize, from: usize, to: usize) -> usize {
        let found = self.search(i, to);
        let asked = found.filter(|j| *j > i || self.is(EntryOfSelfLoops));
        if let Some(j) = asked.filter(|j| self.enters_once(i..j + 1)).filter(|j| *j > i) {
            self.head(i, j, from, to);
            return j + 1;
        }
        let wanted = self.blocks[i].label == 1 || self.is(OutsideUnwanted);
        if wanted && (i == from || self.is(OutsideOfEveryLabel)) {
            self.outside(i, from..to);
        }
        let Some(t) = self.region(i, to) else { return i + 1 };
        self.range(i + 1, t);
        t
    }

    /// The head of a do-loop, and its body.
    fn head(&mut self, i: usize, j: usize, from: usize, to: usize) {
        let asked = !self.is(HeadOnlyWhereFirst) || i == from;
        if asked && (self.blocks[i].label == 1 || self.is(OutsideUnwanted)) {
            self.outside(i, if self.is(HeadOutsideRange) { from..to } else { i..j + 1 });
        }
        if self.is(SearchInLoops) {
            for k in i + 1..=j {
                self.search(k, j + 1);
            }
        }
    }

    fn search(&mut self, i: usize, to: usize) -> Option<usize> {
        let start = self.blocks[i].start;
        let last = match self.wrong {
            SearchFromRecordsLast => self.blocks.len(),
            SearchFromWholeRangesLast => self.end,
            _ => to,
        };
        let mut places: Vec<usize> = (i..last).rev().collect();
        if self.is(SearchFromFirst) {
            places.reverse();
        }
        for j in places {
            let conditional = self.blocks[j].insns.last().is_some_and(|last| last.condition != 0);
            if self.is(SearchOfConditionsAlone) && !conditional {
                continue;
            }
            let closes = self.read(self.edges(j..j + 1), SearchReadsOn, |e| e.to == start && e.kind == edge::TRUE);
            if closes && conditional && j < to {
                return Some(j);
            }
        }
        None
    }

    fn region(&mut self, i: usize, to: usize) -> Option<usize> {
        let target = self.blocks[i].branch_target()?;
        let t = self.blocks.iter().position(|b| b.start == target).filter(|t| i + 1 < *t)?;
        if t > to {
            let _ = self.is(EntryOutOfBounds) && self.enters_once(i + 1..t);
            return None;
        }
        let before = self.is(EscapeBeforeEntry).then(|| self.escapes(i + 1..t, target));
        let stays = self.enters_once(i + 1..t) && !before.unwrap_or_else(|| self.escapes(i + 1..t, target));
        stays.then_some(t)
    }

    fn enters_once(&mut self, inside: Range<usize>) -> bool {
        let later: Vec<u64> = self.blocks[inside.start + 1..inside.end].iter().map(|b| b.start).collect();
        let (before, behind) = (self.edges(0..inside.start), self.edges(inside.end..self.blocks.len()));
        let edges = match self.wrong {
            EntryReadsInside => [before, self.edges(inside), behind],
            EntryFromBehind => [behind, before, vec![]],
            _ => [before, behind, vec![]],
        };
        let entered = self.read(edges.concat(), EntryReadsOn, |e| later.contains(&e.to));
        !entered
    }

    fn escapes(&mut self, region: Range<usize>, target: u64) -> bool {
        let first = self.blocks[region.start].start;
        let edges = self.edges(if self.is(EscapeReadsAll) { 0..self.blocks.len() } else { region });
        self.read(edges, EscapeReadsOn, |e| e.to < first && e.to != target)
    }

    fn outside(&mut self, i: usize, inside: Range<usize>) -> bool {
        let start = self.blocks[i].start;
        let behind = if self.is(OutsideReadsInside) { inside.start } else { inside.end };
        let edges = [self.edges(0..inside.start), self.edges(behind..self.blocks.len())].concat();
        self.read(edges, OutsideReadsOn, |e| e.to == start && e.kind != edge::FALL)
    }

    fn edges(&self, blocks: Range<usize>) -> Vec<&'a Edge> {
        self.blocks[blocks].iter().flat_map(|b| &b.edges).collect()
    }

    fn read(&mut self, edges: Vec<&Edge>, reads_on: Wrong, decides: impl Fn(&Edge) -> bool) -> bool {
        let decided = edges.iter().position(|e| decides(e));
        self.looks += match decided {
            Some(at) if self.is(DecidingUncounted) => at,
            Some(at) if !self.is(reads_on) => at + 1,
            _ => edges.len(),
        };
        decided.is_some()
    }
}
