//! Rows (#102): the port's writing and reading against the second implementation, on listings of the port's own and on any tokens, on
//! damaged files and on lists that hold no rows.

use super::answers::{print_kinds, Answers};
use super::Tally;
use crate::damage::valid_call;
use crate::lists::{self, Lists};
use crate::port::{self, Port};
use crate::rng::Rng;
use crate::rows::{self, any, damage, wrong_lists, Row};

/// Damaged files and changed lists for each listing.
const FILES: usize = 8;
const CHANGES: usize = 5;

pub fn rows(seed: u64, count: usize) -> Result<bool, String> {
    let port = port::linked()?;
    let run = compared(&port, seed, count, Some("rows.csv".to_string()))?;
    run.seen.print()?;
    Ok(run.tally.end())
}

/// The comparison of so many listings, and of what is made of each. The first case that differs is kept under this name, if one is given.
pub fn compared(port: &Port, seed: u64, count: usize, kept: Option<String>) -> Result<Run<'_>, String> {
    let mut rng = Rng::new(seed);
    let mut run = Run { port, tally: Tally::keeping("rows", kept), seen: Seen::default() };
    for n in 0..count {
        run.listing(&mut rng, n)?;
    }
    Ok(run)
}

pub struct Run<'a> {
    port: &'a Port,
    tally: Tally,
    seen: Seen,
}

impl Run<'_> {
    pub fn differ(&self) -> usize {
        self.tally.differ
    }

    /// One listing both ways, then what is made of it.
    fn listing(&mut self, rng: &mut Rng, n: usize) -> Result<(), String> {
        let (lists, sizes) = if n % 3 == 0 { self.listed(rng) } else { rows::lists_of(&any::rows(rng)) };
        let Some(held) = rows::held(&lists, sizes) else {
            return self.tally.differs_in(&lists.text, || "the port's own listing holds no rows".to_string());
        };
        let file = rows::file(&held);
        for room in [file.len(), file.len() + 3] {
            self.write(&lists, sizes, room)?;
        }
        self.read(&file, Lists::lent(lists::fitting(sizes)))?;
        self.read(&file, Lists::longer(sizes))?;
        if held.is_empty() {
            return self.of_nothing(rng);
        }
        self.write(&lists, sizes, file.len() - 1)?;
        self.read(&file, Lists::one_less(sizes, n % 7).0)?;
        self.read(&file, some_short(rng, sizes))?;
        self.damaged(rng, n, &held, sizes)?;
        self.changed(rng, n, &lists, sizes)
    }

    /// The port's listing of a generated record, with some entries past the sizes; one that the program cannot hold counts as empty.
    fn listed(&mut self, rng: &mut Rng) -> (Lists, [usize; 3]) {
        let call = valid_call(rng);
        let room = [1 << 16, 1 << 14, 900];
        let (answer, left) = (self.port.list)(&call.bytes, call.from, call.to, Lists::lent(lists::fitting(room)));
        self.seen.records += 1;
        (left.cut(lists::fitting(answer.sizes).map(|n| n + rng.below(3))), answer.sizes)
    }

    /// No rows: one byte, and lists that end at 0.
    fn of_nothing(&mut self, rng: &mut Rng) -> Result<(), String> {
        self.read(&[rng.below(256) as u8], Lists::lent([4; 7]))?;
        self.write(&Lists::lent([2; 7]), [0; 3], 0)?;
        self.write(&Lists::lent([0; 7]), [0, 0, 1], 100)?;
        Ok(())
    }

    fn damaged(&mut self, rng: &mut Rng, n: usize, held: &[Row], sizes: [usize; 3]) -> Result<(), String> {
        for k in 0..FILES {
            let kind = (n * FILES + k) % damage::KINDS;
            let file = damage::damaged(rng, held, kind);
            let no = self.read(&file, lent(rng, sizes))?;
            self.seen.files[kind].add(no);
        }
        Ok(())
    }

    fn changed(&mut self, rng: &mut Rng, n: usize, lists: &Lists, sizes: [usize; 3]) -> Result<(), String> {
        for k in 0..CHANGES {
            let kind = (n * CHANGES + k) % wrong_lists::KINDS;
            let (lists, sizes) = wrong_lists::changed(rng, lists, sizes, kind);
            let room = if rng.percent(80) {
                2 * lists.text.len() + 5 * lists.ends.len() + 28 * lists.marks.len()
            } else {
                rng.below(40)
            };
            let no = self.write(&lists, sizes, room)?;
            self.seen.lists[kind].add(no);
        }
        Ok(())
    }

    /// One call for writing: the answer, the size, and all bytes of the list for the file.
    fn write(&mut self, lists: &Lists, sizes: [usize; 3], room: usize) -> Result<u8, String> {
        let want = rows::write(lists, sizes, vec![0xee; room]);
        let got = (self.port.write_rows)(lists, sizes, vec![0xee; room]);
        self.tally.compared += 1;
        self.seen.written.add(want.no);
        if got != want {
            let said = |w: &rows::Written| format!("{} with {} bytes", w.no, w.size);
            let words = || format!("writing {sizes:?} into {room}: expected {}, the port says {}", said(&want), said(&got));
            self.tally.differs_in(&want.out, words)?;
        }
        Ok(want.no)
    }

    /// One call for reading: the answer, the sizes, and all entries of the seven lists. What is accepted is also written again.
    fn read(&mut self, file: &[u8], lent: Lists) -> Result<u8, String> {
        let want = rows::read(file, lent.clone());
        let got = (self.port.read_rows)(file, lent);
        self.tally.compared += 1;
        self.seen.read.add(want.no);
        if want.no == 0 && rows::write(&want.lists, want.sizes, vec![0; file.len()]).out != file {
            return Err("the second implementation reads a file that it does not write".to_string());
        }
        if (got.no, got.sizes) != (want.no, want.sizes) || got.lists != want.lists {
            let words = || match (got.no, got.sizes) == (want.no, want.sizes) {
                true => format!("{} with {:?}, and a list differs", got.no, got.sizes),
                false => {
                    format!("reading: expected {} with {:?}, the port says {} with {:?}", want.no, want.sizes, got.no, got.sizes)
                }
            };
            self.tally.differs_in(file, words)?;
        }
        Ok(want.no)
    }
}

/// Lists for a damaged file: with room to spare, just what the undamaged one needs, or less.
fn lent(rng: &mut Rng, sizes: [usize; 3]) -> Lists {
    match rng.below(10) {
        0..=6 => Lists::lent(lists::fitting(sizes.map(|n| 2 * n + 4))),
        7..=8 => Lists::lent(lists::fitting(sizes)),
        _ => some_short(rng, sizes),
    }
}

/// Lists that fit, but for some of them.
fn some_short(rng: &mut Rng, sizes: [usize; 3]) -> Lists {
    Lists::lent(lists::fitting(sizes).map(|n| if rng.percent(70) { n } else { rng.range(0, n) }))
}

/// What came, so that a comparison of refusals alone would show.
struct Seen {
    records: usize,
    written: Answers,
    read: Answers,
    /// By the kind of damage and of change.
    files: [Answers; damage::KINDS],
    lists: [Answers; wrong_lists::KINDS],
}

impl Default for Seen {
    fn default() -> Seen {
        let none = Answers::default();
        Seen { records: 0, written: none, read: none, files: [none; damage::KINDS], lists: [none; wrong_lists::KINDS] }
    }
}

impl Seen {
    fn print(&self) -> Result<(), String> {
        println!("  {} listings of the port's own", self.records);
        print_kinds("damaged files", &self.files, damage::name, 16);
        print_kinds("changed lists", &self.lists, wrong_lists::name, 16);
        self.written.print("writing", &[16, 12])?;
        self.read.print("reading", &[16, 12, 13, 14])
    }
}
