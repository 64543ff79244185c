//! All small routines (#112): the port's against the second implementation's, in every list that is long enough or too short, numbers that no routine
//! has, and of the set as the port makes it what the request says of it.

use super::answers::Answers;
use super::stored::{Kept, SIZES};
use super::Tally;
use crate::port;
use crate::questions;
use crate::record::Record;
use crate::rng::Rng;
use crate::routines::told::{self, Told};
use crate::routines::{self, NO_ROOM, NO_ROUTINE};

/// "There are 2, 18 and 256."
const COUNTS: [usize; 3] = [2, 18, 256];
const ALL: usize = 276;

/// No record is longer.
const LONGEST: usize = 405;

/// A port's call, which in tests is any.
pub type Make<'a> = &'a dyn Fn(usize, &mut [u8], &mut [u64]) -> u8;

pub fn routines(seed: u64, count: usize) -> Result<bool, String> {
    let port = port::linked()?;
    let mut run = Run::new(&port.routine, Tally::new("routines"));
    run.every()?;
    run.without()?;
    run.generated(seed, count)?;
    run.set()?;
    run.seen.print()?;
    Ok(run.tally.end())
}

/// The comparison with some lists alone, counted alone: how many calls differ, and whether the set itself is as the request says.
#[cfg(test)]
pub fn compared(make: Make<'_>) -> Result<(usize, bool), String> {
    let mut run = Run::new(make, Tally::keeping("routines", None));
    run.without()?;
    run.generated(1, 4000)?;
    let calls = run.tally.differ;
    run.set()?;
    Ok((calls, run.tally.differ == calls))
}

struct Run<'a> {
    make: Make<'a>,
    ours: Kept,
    theirs: Kept,
    tally: Tally,
    seen: Seen,
}

impl Run<'_> {
    fn new(make: Make<'_>, tally: Tally) -> Run<'_> {
        Run { make, ours: Kept::default(), theirs: Kept::default(), tally, seen: Seen::default() }
    }

    /// Every routine in a list of every length up to a few bytes more than the longest has, with every number of entries for the size.
    fn every(&mut self) -> Result<(), String> {
        for k in 0..ALL {
            for room in 0..=LONGEST + 5 {
                (0..=SIZES).try_for_each(|entries| self.call(k, room, entries))?;
            }
        }
        Ok(())
    }

    /// Numbers that no routine has: the next ones, and those that have a routine's in their low 8, 9, 16 or 32 bits, or stand below 0.
    fn without(&mut self) -> Result<(), String> {
        let turns = [1 << 9, 1 << 10, 1 << 16, 1 << 31, 1 << 32, 1 << 48, 1 << 63, usize::MAX - ALL];
        let near = (0..=ALL).flat_map(|k| turns.map(|turn| turn + k));
        for k in (ALL..turns[0]).chain(near) {
            for room in [0, 1, LONGEST, LONGEST + 1] {
                self.call(k, room, room % (SIZES + 1))?;
            }
        }
        Ok(())
    }

    /// Any numbers, many of them with a routine, in lists that fit, that are longer, one byte too short, shorter by any number, and empty.
    fn generated(&mut self, seed: u64, count: usize) -> Result<(), String> {
        let mut rng = Rng::new(seed);
        for _ in 0..count {
            let k = if rng.percent(80) { rng.below(ALL + 2) } else { rng.u64() as usize >> rng.below(60) };
            let fit = routines::bytes().get(k).map_or(LONGEST, Vec::len);
            let room = rng.pick(&[fit, fit, fit + 1, fit + 200, 2 * LONGEST, 65_536, fit - 1, fit - 9, 0]);
            let room = if rng.percent(10) { rng.below(fit) } else { room };
            self.call(k, room, rng.below(SIZES + 1))?;
        }
        Ok(())
    }

    /// One call: the answer, the whole list with what lies behind what is lent of it, and the list for the size likewise.
    fn call(&mut self, k: usize, room: usize, entries: usize) -> Result<(), String> {
        let fill = self.tally.compared as u8;
        let want = self.ours.call(room, entries, fill, |out, size| routines::make(k, out, size));
        let got = self.theirs.call(room, entries, fill, |out, size| (self.make)(k, out, size));
        self.tally.compared += 1;
        self.seen.answers.add(want);
        self.seen.sizes[entries] += 1;
        if (want, &self.ours) == (got, &self.theirs) {
            return Ok(());
        }
        let (ours, theirs) = (&self.ours, &self.theirs);
        let record = routines::bytes().get(k).map_or(&[][..], |record| record);
        self.tally.differs_in(record, || {
            format!("routine {k}, {room} bytes and {entries} sizes lent: {}", ours.unlike(theirs, [want, got]))
        })
    }

    /// "Each comes exactly once, none is missing, and all are accepted.": what the port makes, told from the records alone, goes up from one to the
    /// next, and there are as many of each number of blocks as there can be.
    fn set(&mut self) -> Result<(), String> {
        let mut last = None;
        for k in 0..ALL {
            let record = made(self.make, k);
            self.tally.compared += 1;
            self.seen.longest = self.seen.longest.max(record.len());
            match next(&record, &last) {
                Ok(told) => {
                    self.seen.blocks[told.blocks - 1] += 1;
                    last = Some(told);
                }
                Err(why) => self.tally.differs_in(&record, || format!("routine {k}: {why}"))?,
            }
        }
        self.tally.compared += 1;
        if self.seen.blocks != COUNTS || self.seen.longest != LONGEST {
            let seen = (self.seen.blocks, self.seen.longest);
            self.tally.differs_in(&[], || format!("of one, two and three blocks and in bytes: {seen:?}"))?;
        }
        Ok(())
    }
}

/// What the port stores for a number, in a list that suffices.
fn made(make: Make<'_>, k: usize) -> Vec<u8> {
    let (mut out, mut size) = (vec![0xee; 2 * LONGEST], [0]);
    make(k, &mut out, &mut size);
    out.truncate(size[0] as usize);
    out
}

/// Which routine a record is, if all questions get a yes and it stands behind the one before.
fn next(record: &[u8], last: &Option<Told>) -> Result<Told, String> {
    let no = questions::first_no(record, 0, 0);
    if no != 0 {
        return Err(format!("question {no} gets a no"));
    }
    let told = told::routine(&Record::parse(record))?;
    match last {
        Some(last) if *last >= told => Err(format!("{told:?} does not stand behind {last:?}")),
        _ => Ok(told),
    }
}

/// What came.
#[derive(Default)]
struct Seen {
    answers: Answers,
    /// By how many entries were lent for the size.
    sizes: [usize; SIZES + 1],
    /// The port's routines of one, two and three blocks.
    blocks: [usize; 3],
    longest: usize,
}

impl Seen {
    fn print(&self) -> Result<(), String> {
        let [one, two, three] = self.blocks;
        println!("  the port's routines: {one} of one block, {two} of two, {three} of three; at most {} bytes", self.longest);
        let [none, one, two] = self.sizes;
        println!("  calls with no entry for the size {none}, with one {one}, with two {two}");
        self.answers.print("routines", &[NO_ROUTINE.into(), NO_ROOM.into()])
    }
}
