//! Where a routine lies: by the unwind table, else by what its branches reach.

use std::collections::{BTreeMap, BTreeSet};

use super::blocks::{Followed, Follower};
use super::decode::Decoder;
use super::pe::Image;

/// How often a routine is followed again to a later end at most.
const EXTENSIONS: usize = 8;

/// How a start is known. An earlier one says more.
#[derive(Clone, Copy, Debug, PartialEq, Eq, PartialOrd, Ord)]
pub enum Origin {
    /// By the file: entry point, export, symbol, unwind table.
    Named,
    Called,
    /// An instruction takes the address, and a routine may begin there.
    Pointed,
    /// The target of a jump out of a routine.
    Jumped,
}

/// The starts that are known.
#[derive(Default)]
pub struct Starts {
    origins: BTreeMap<u64, Origin>,
    named: BTreeSet<u64>,
    called: BTreeSet<u64>,
    /// Those that may end the routine before them: all but those that are only jumped to.
    ends: BTreeSet<u64>,
    /// Whether the search for them ended at a limit.
    pub is_cut_short: bool,
}

impl Starts {
    pub fn len(&self) -> usize {
        self.origins.len()
    }

    pub fn origins(&self) -> impl DoubleEndedIterator<Item = (u64, Origin)> + '_ {
        self.origins.iter().map(|(address, origin)| (*address, *origin))
    }

    /// Puts a start, and says whether it is new. One that is known by more than before replaces what was known.
    pub fn put(&mut self, address: u64, origin: Origin) -> bool {
        let before = self.origins.get(&address).copied();
        self.origins.insert(address, before.map_or(origin, |before| before.min(origin)));
        match origin {
            Origin::Named => self.named.insert(address),
            Origin::Called => self.called.insert(address),
            Origin::Pointed | Origin::Jumped => false,
        };
        if origin < Origin::Jumped {
            self.ends.insert(address);
        }
        before.is_none()
    }

    pub fn has(&self, address: u64) -> bool {
        self.origins.contains_key(&address)
    }
}

/// A driver's code and the starts that are known.
pub struct Extents<'a> {
    pub image: &'a Image<'a>,
    pub decoder: &'a Decoder,
    pub starts: &'a Starts,
}

impl<'a> Extents<'a> {
    /// A routine followed as far as it goes.
    pub fn followed(&self, start: u64) -> (Follower<'a>, Followed) {
        if let Some(ranges) = self.unwound(start) {
            return self.follow(start, ranges);
        }
        let last = self.last(start);
        let (mut end, mut steps) = (self.next(start, last), 0);
        for _ in 0..EXTENSIONS {
            let (follower, mut followed) = self.follow(start, vec![(start, end)]);
            steps += followed.steps;
            followed.steps = steps;
            match self.beyond(&followed, end, last) {
                Some(address) => end = self.next(address, last),
                None => return (follower, followed),
            }
        }
        self.follow(start, vec![(start, end)])
    }

    /// The first address behind a start where another routine begins, unless it is called inside of this one.
    pub fn next_start(&self, start: u64) -> u64 {
        self.next(start, self.last(start))
    }

    fn follow(&self, start: u64, ranges: Vec<(u64, u64)>) -> (Follower<'a>, Followed) {
        let part = self.image.part(start).filter(|part| part.begin == start);
        let handlers = part.map_or(Vec::new(), |part| part.handlers(self.image));
        let follower = Follower { image: self.image, decoder: self.decoder, start, ranges, handlers };
        let followed = follower.follow();
        (follower, followed)
    }

    /// The ranges that the unwind table gives: the one that holds the start, and with a routine's start all further parts of it.
    fn unwound(&self, start: u64) -> Option<Vec<(u64, u64)>> {
        let part = self.image.part(start)?;
        let further = self.image.parts_of(start).filter(|p| p.begin != part.begin).map(|p| (p.begin, p.end));
        let mut ranges: Vec<(u64, u64)> = [(part.begin, part.end)].into_iter().chain(further).collect();
        ranges.sort_unstable();
        // Those that overlap become one.
        ranges.dedup_by(|next, before| {
            let overlap = next.0 <= before.1;
            before.1 = if overlap { before.1.max(next.1) } else { before.1 };
            overlap
        });
        Some(ranges)
    }

    /// Where a routine ends at the latest: at the section's end, or where the file says that another begins.
    fn last(&self, start: u64) -> u64 {
        let behind = start.saturating_add(1);
        let named = self.starts.named.range(behind..).next().copied();
        let unwound = self.image.unwind.get(self.image.unwind.partition_point(|part| part.begin <= start)).map(|part| part.begin);
        [named, unwound].into_iter().flatten().fold(self.image.section_end(start), u64::min)
    }

    /// The first start behind an address that may end a routine.
    fn next(&self, address: u64, last: u64) -> u64 {
        self.starts.ends.range(address.saturating_add(1)..).next().map_or(last, |start| last.min(*start))
    }

    /// The furthest address behind an end that the routine itself goes to: what begins at that end is called or pointed to inside of the
    /// routine. A jump to where another routine may begin is a tail call.
    fn beyond(&self, followed: &Followed, end: u64, last: u64) -> Option<u64> {
        let behind = |a: &&u64| (end + 1..last).contains(*a);
        let cases = followed.outer_cases.iter().filter(|a| !self.starts.called.contains(*a));
        let jumps = followed.jumps.iter().filter(|a| !self.image.may_begin(**a));
        let branches = followed.branches.iter().chain(jumps).filter(|a| !self.starts.ends.contains(*a));
        let reached = branches.chain(cases).filter(behind).max().copied();
        reached.or((followed.runs_on && end < last).then_some(end))
    }
}
