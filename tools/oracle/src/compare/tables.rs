//! Command tables for the keyer (#113): the port's against the second implementation's, on listings made for them, on the Rust's of generated
//! records and on lists that hold no rows.

use super::answers::{print_kinds, Answers};
use super::Tally;
use crate::lists::Lists;
use crate::port;
use crate::rng::Rng;
use crate::rows::{self, wrong_lists, NOT_ROWS};
use crate::tables::any::{self, Case};
use crate::tables::{self, listed, Columns, Entry, Lent, Made, Maker, Names, NO_NAME, NO_ROOM};

/// Changed sets of lists for each listing.
const CHANGES: usize = 3;

/// How far the lists for a table reach behind what is lent of them.
const BEHIND: usize = 3;

/// Room for a table: bytes, rows, addresses.
type Room = [usize; 3];

pub fn tables(seed: u64, count: usize) -> Result<bool, String> {
    let run = compared(port::linked()?.command_table, seed, count, Some("tables.txt".to_string()))?;
    run.seen.print()?;
    Ok(run.tally.end())
}

/// The comparison of so many listings, and of what is made of each. The first input that differs is kept under this name, if one is given.
pub fn compared(port: Maker, seed: u64, count: usize, kept: Option<String>) -> Result<Run, String> {
    let mut rng = Rng::new(seed);
    let tally = Tally::keeping("tables", kept);
    let mut run = Run { port, ours: Kept::default(), theirs: Kept::default(), tally, seen: Seen::default() };
    run.table(&mut rng, 1, &any::long())?;
    for n in 0..count {
        let case = if is_listed(n) { listed::case(&mut rng)? } else { any::counted(&mut rng, &mut run.seen.lines) };
        run.table(&mut rng, n, &case)?;
    }
    Ok(run)
}

/// Whether listing `n` is the Rust's.
fn is_listed(n: usize) -> bool {
    n % 3 == 0
}

pub struct Run {
    port: Maker,
    ours: Kept,
    theirs: Kept,
    tally: Tally,
    seen: Seen,
}

impl Run {
    pub fn differ(&self) -> usize {
        self.tally.differ
    }

    /// The table of a listing, in lists that fit, longer ones and each one too short; then other names and other lists.
    fn table(&mut self, rng: &mut Rng, n: usize, case: &Case) -> Result<(), String> {
        let names = Names { call: &case.call, register: &case.register };
        let (lists, sizes) = rows::lists_of(&case.lines);
        let entries = tables::entries(&case.lines, names);
        let Columns { bytes, rows, .. } = tables::columns(&entries);
        self.seen.tables[usize::from(is_listed(n))].add(&entries);
        let fit = [bytes.len(), rows.len(), rows.len()];
        self.make(&lists, sizes, names, fit)?;
        self.make(&lists, sizes, names, fit.map(|room| room + rng.below(4)))?;
        for which in (0..3).filter(|which| fit[*which] > 0) {
            let mut room = fit;
            room[which] -= 1;
            self.make(&lists, sizes, names, room)?;
        }
        self.make(&lists, sizes, names, fit.map(|room| if rng.percent(60) { room } else { rng.range(0, room) }))?;
        self.unnamed(rng, (&lists, sizes), names)?;
        if case.lines.is_empty() {
            return Ok(());
        }
        self.changed(rng, n, (&lists, sizes), names)
    }

    /// 19 comes before all else.
    fn unnamed(&mut self, rng: &mut Rng, held: (&Lists, [usize; 3]), names: Names<'_>) -> Result<(), String> {
        let (call, register) = [(&names.call[..0], names.register), (names.call, &names.register[..0]), (&[], &[])][rng.below(3)];
        let sizes = if rng.percent(50) { held.1 } else { [usize::MAX; 3] };
        let room = [200, 20, 20].map(|most| rng.below(most + 1));
        self.make(held.0, sizes, Names { call, register }, room).map(|_| ())
    }

    fn changed(&mut self, rng: &mut Rng, n: usize, held: (&Lists, [usize; 3]), names: Names<'_>) -> Result<(), String> {
        for k in 0..CHANGES {
            let kind = (n * CHANGES + k) % wrong_lists::KINDS;
            let (lists, sizes) = wrong_lists::changed(rng, held.0, held.1, kind);
            let most = rng.pick(&[[24_000, 300, 300], [24_000, 300, 300], [40, 4, 4], [0; 3]]);
            let room = if rng.percent(80) { most } else { most.map(|room| rng.below(room + 1)) };
            let no = self.make(&lists, sizes, names, room)?;
            self.seen.lists[kind].add(no);
        }
        Ok(())
    }

    /// One call: the answer, and all three lists with what lies behind what is lent of them.
    fn make(&mut self, lists: &Lists, sizes: [usize; 3], names: Names<'_>, room: Room) -> Result<u8, String> {
        let want = self.ours.call(tables::make, lists, sizes, names, room);
        let got = self.theirs.call(self.port, lists, sizes, names, room);
        let no = want.err().unwrap_or(0);
        self.tally.compared += 1;
        self.seen.answers.add(no);
        if (want, &self.ours) != (got, &self.theirs) {
            let (ours, theirs) = (&self.ours, &self.theirs);
            self.tally.differs_in(&input(lists, sizes, names), || {
                format!(
                    "sizes {sizes:?}, {room:?} lent: expected {want:?} with {ours:x?}, the port says {got:?} with {theirs:x?}"
                )
            })?;
        }
        Ok(no)
    }
}

/// The input of the program `keyer` for these lists; of lists that hold no rows the text stands behind the names.
fn input(lists: &Lists, sizes: [usize; 3], names: Names<'_>) -> Vec<u8> {
    let file = rows::held(lists, sizes).map_or(lists.text.clone(), |lines| rows::file(&lines));
    [names.call, b"\n", names.register, b"\n", &file].concat()
}

/// Lists for a table, of which a part is lent: all that lies behind it must stay as it was.
#[derive(Debug, Default, PartialEq, Eq)]
struct Kept {
    bytes: Vec<u8>,
    rows: Vec<u64>,
    addresses: Vec<u64>,
}

impl Kept {
    fn call(&mut self, make: Maker, lists: &Lists, sizes: [usize; 3], names: Names<'_>, [bytes, rows, addresses]: Room) -> Made {
        self.bytes.clear();
        self.bytes.resize(bytes + BEHIND, 0xee);
        for (list, room) in [(&mut self.rows, rows), (&mut self.addresses, addresses)] {
            list.clear();
            list.resize(room + BEHIND, 0xeeee_eeee_eeee_eeee);
        }
        let lent =
            Lent { bytes: &mut self.bytes[..bytes], rows: &mut self.rows[..rows], addresses: &mut self.addresses[..addresses] };
        make(lists, sizes, names, lent)
    }
}

/// What came, so that a comparison of refusals or of dashes alone would show.
struct Seen {
    /// By the kind of line.
    lines: [usize; any::KINDS],
    /// Those of listings made here, and of the Rust's.
    tables: [Tables; 2],
    answers: Answers,
    /// By the kind of change.
    lists: [Answers; wrong_lists::KINDS],
}

/// How many tables there were, and what their rows had.
#[derive(Clone, Copy, Default)]
struct Tables {
    tables: usize,
    with_bytes: usize,
    empty: usize,
    dashes: usize,
    most_bytes: usize,
}

impl Tables {
    fn add(&mut self, entries: &[Entry]) {
        self.tables += 1;
        for entry in entries {
            match &entry.bytes {
                None => self.dashes += 1,
                Some(bytes) if bytes.is_empty() => self.empty += 1,
                Some(_) => self.with_bytes += 1,
            }
        }
        self.most_bytes = self.most_bytes.max(entries.iter().flat_map(|entry| &entry.bytes).map(Vec::len).sum());
    }

    fn print(&self, of: &str) {
        let Tables { tables, with_bytes, empty, dashes, most_bytes } = self;
        println!(
            "  {tables} tables of {of}: rows {with_bytes} with bytes, {empty} with an empty literal's, {dashes} with a dash; at most {most_bytes} bytes"
        );
    }
}

impl Default for Seen {
    fn default() -> Seen {
        let none = Answers::default();
        let lists = [none; wrong_lists::KINDS];
        Seen { lines: [0; any::KINDS], tables: [Tables::default(); 2], answers: none, lists }
    }
}

impl Seen {
    fn print(&self) -> Result<(), String> {
        println!("  lines of listings made here:");
        for (kind, count) in self.lines.iter().enumerate() {
            println!("    {:36} {count:7}", any::name(kind));
        }
        let [made, listed] = &self.tables;
        made.print("listings made here");
        listed.print("listings by the Rust");
        print_kinds("changed lists", &self.lists, wrong_lists::name, NOT_ROWS.into());
        let [bytes, rows, addresses] = NO_ROOM.map(usize::from);
        self.answers.print("making", &[NO_NAME.into(), NOT_ROWS.into(), bytes, rows, addresses])
    }
}
