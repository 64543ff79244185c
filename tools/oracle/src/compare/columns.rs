//! Columns before the store (#110): both directions of the port against the second implementation's, and there and back by the port alone, on
//! records of every generator and on bytes that are none.

use super::answers::{print_kinds, Answers};
use super::stored::{Kept, SIZES};
use super::Tally;
use crate::columns::{self, any, Rearranger, NO_ROOM};
use crate::damage::{self, Call};
use crate::port;
use crate::questions;
use crate::record::Layout;
use crate::rng::Rng;

/// Both directions, to columns and from columns.
type Ways<T> = [T; 2];

const NAMES: Ways<&str> = ["to columns", "from columns"];
const OURS: Ways<Rearranger> = [columns::to_columns, columns::from_columns];

pub fn columns(seed: u64, count: usize) -> Result<bool, String> {
    let port = port::linked()?;
    let mut run = Run::new([port.to_columns, port.from_columns], Tally::new("columns"));
    damage::each_small_change(|call| run.exactly(&call.bytes))?;
    run.generated(seed, count)?;
    run.seen.print()?;
    Ok(run.tally.end())
}

/// The comparison of so many inputs, counted alone.
pub fn compared(port: Ways<Rearranger>, seed: u64, count: usize) -> Result<usize, String> {
    let mut run = Run::new(port, Tally::keeping("columns", None));
    run.generated(seed, count)?;
    Ok(run.tally.differ)
}

struct Run {
    port: Ways<Rearranger>,
    ours: Kept,
    theirs: Kept,
    tally: Tally,
    seen: Seen,
}

impl Run {
    fn new(port: Ways<Rearranger>, tally: Tally) -> Run {
        Run { port, ours: Kept::default(), theirs: Kept::default(), tally, seen: Seen::default() }
    }

    fn generated(&mut self, seed: u64, count: usize) -> Result<(), String> {
        let mut rng = Rng::new(seed);
        for n in 0..count {
            let kind = any::kind(n);
            let bytes = any::bytes(&mut rng, kind);
            self.seen.input(kind, &bytes);
            self.rearranged(&mut rng, &bytes)?;
            self.there_and_back(&bytes)?;
        }
        Ok(())
    }

    /// Both directions in a list that fits.
    fn exactly(&mut self, bytes: &[u8]) -> Result<(), String> {
        (0..2).try_for_each(|way| self.call(way, bytes, bytes.len(), 1))
    }

    /// Both directions in lists that fit, that are longer, one byte too short, shorter by any number, and empty.
    fn rearranged(&mut self, rng: &mut Rng, bytes: &[u8]) -> Result<(), String> {
        let fit = bytes.len();
        for way in 0..2 {
            for room in [fit, fit + 1, fit + rng.below(200), fit.saturating_sub(1), rng.below(fit + 1), 0] {
                self.call(way, bytes, room, rng.below(SIZES + 1))?;
            }
        }
        Ok(())
    }

    /// One call: the answer, the whole output list with what lies behind what is lent of it, and the list for the size likewise.
    fn call(&mut self, way: usize, bytes: &[u8], room: usize, entries: usize) -> Result<(), String> {
        let fill = self.tally.compared as u8;
        let want = self.ours.call(room, entries, fill, |out, size| OURS[way](bytes, out, size));
        let got = self.theirs.call(room, entries, fill, |out, size| self.port[way](bytes, out, size));
        self.tally.compared += 1;
        self.seen.answers[way].add(want);
        self.seen.sizes[entries] += 1;
        if (want, &self.ours) == (got, &self.theirs) {
            return Ok(());
        }
        let (ours, theirs) = (&self.ours, &self.theirs);
        self.tally.differs(&call_of(bytes), || {
            format!("{}, {room} bytes and {entries} sizes lent: {}", NAMES[way], ours.unlike(theirs, [want, got]))
        })
    }

    /// "The way back restores every byte", whichever direction comes first.
    fn there_and_back(&mut self, bytes: &[u8]) -> Result<(), String> {
        if questions::first_no_of_four(bytes) != 0 {
            return Ok(());
        }
        for [there, back] in [[0, 1], [1, 0]] {
            let mut lists = [vec![0x5a; bytes.len()], vec![0xa5; bytes.len()]];
            let [stored, restored] = &mut lists;
            let answers = [self.port[there](bytes, stored, &mut []), self.port[back](stored, restored, &mut [])];
            self.tally.compared += 1;
            self.seen.returned += 1;
            if answers != [0; 2] || restored != bytes {
                let words = || format!("{} and back: answers {answers:?}, not every byte came back", NAMES[there]);
                self.tally.differs(&call_of(bytes), words)?;
            }
        }
        Ok(())
    }
}

fn call_of(bytes: &[u8]) -> Call {
    Call { bytes: bytes.to_vec(), from: 0, to: 0 }
}

/// What came, so that a comparison of refusals alone would show.
#[derive(Default)]
struct Seen {
    /// By the kind of input, of questions 1 to 4.
    kinds: [Answers; any::COUNT],
    answers: Ways<Answers>,
    /// By how many entries were lent for the size.
    sizes: [usize; SIZES + 1],
    /// Of the inputs that questions 1 to 4 accept: those that all accept, and those that a later one refuses.
    accepted: usize,
    refused_later: usize,
    bodies: usize,
    most_bodies: usize,
    longest: usize,
    returned: usize,
}

impl Seen {
    fn input(&mut self, kind: usize, bytes: &[u8]) {
        let no = questions::first_no_of_four(bytes);
        self.kinds[kind].add(no);
        if no != 0 {
            return;
        }
        match questions::first_no(bytes, 0, 0) {
            0 => self.accepted += 1,
            _ => self.refused_later += 1,
        }
        let bodies = Layout::of(bytes).i;
        self.bodies += bodies;
        self.most_bodies = self.most_bodies.max(bodies);
        self.longest = self.longest.max(bytes.len());
    }

    fn print(&self) -> Result<(), String> {
        print_kinds("inputs", &self.kinds, any::name, 0);
        println!(
            "  of those that questions 1 to 4 accept {} are accepted by all questions and {} refused by a later one",
            self.accepted, self.refused_later
        );
        println!("  {} bodies, at most {} in a record; at most {} bytes", self.bodies, self.most_bodies, self.longest);
        let [none, one, two] = self.sizes;
        println!(
            "  calls with no entry for the size {none}, with one {one}, with two {two}; {} times there and back",
            self.returned
        );
        let numbers = [1, 2, 3, 4, NO_ROOM.into()];
        NAMES.iter().zip(&self.answers).try_for_each(|(name, answers)| answers.print(name, &numbers))
    }
}
