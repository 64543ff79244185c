//! Lists blocks of an x86 routine's record as pseudocode, writes and reads listings as rows for a spreadsheet, gives a string back from its
//! literal in a listing, makes a listing's command table for a keyer, puts a record's instructions by columns for a store, and makes all small
//! routines for tests, by Cakirotu's proved library.
//!
//! Any bytes may be lent as a record: every call ends with a listing or a [`Refusal`]. [`list`] allocates a [`Listing`] of just
//! the size needed; [`size`] and [`list_into`] allocate nothing and work on lists that the caller lends. All three also tell how much
//! looking the listing took ([`Listed::looks`]). [`check`] tells whether a record's listing may be followed. [`write_rows`] and [`read_rows`] turn a listing into rows and back, [`write_rows_into`]
//! and [`read_rows_into`] on what the caller lends. [`read_literal`] gives the bytes of a string, [`read_literal_into`] in a list that
//! the caller lends; so do [`command_table`] and [`command_table_into`] with the bytes that a register is set to before each call by a
//! name. [`to_columns`] and [`from_columns`], and these with `_into`, rearrange a record for a store that compresses it, and back.
//! [`routine`] and [`routine_into`] make small routines by number, as records.
//!
//! ```
//! let record = std::fs::read("no such file").unwrap_or_default();
//! match cakirotu::list(&record, cakirotu::blocks(&record)) {
//!     Ok(listing) => listing.view().lines().for_each(|line| println!("{}", String::from_utf8_lossy(line.text()))),
//!     Err(refusal) => println!("{refusal}"),
//! }
//! ```

mod assumption;
mod columns;
mod ffi;
mod literal;
mod refusal;
mod routine;
mod rows;
mod table;
mod view;

use std::ops::Range;

pub use assumption::{check, Assumption};
pub use columns::{from_columns, from_columns_into, to_columns, to_columns_into};
pub use literal::{read_literal, read_literal_into, Literal, LITERAL_BYTES};
pub use refusal::Refusal;
pub use routine::{routine, routine_into, ROUTINES, ROUTINE_BYTES};
pub use rows::{read_rows, read_rows_into, write_rows, write_rows_into, Held};
pub use table::{command_table, command_table_into, Names, Table, TableLists, TableRows, TableSizes};
pub use view::{Kind, Line, Lines, Token, Tokens, View};

/// How long a listing is.
#[derive(Clone, Copy, Debug, Default, PartialEq, Eq, Hash)]
pub struct Sizes {
    /// Bytes of text.
    pub text: usize,
    pub tokens: usize,
    pub lines: usize,
}

/// What a call for a listing answers.
#[derive(Clone, Copy, Debug, Default, PartialEq, Eq, Hash)]
pub struct Listed {
    pub sizes: Sizes,
    /// How many edges were read to find loops, if-regions and labels, each as often as it was read: at most 5 for each block of the range and edge
    /// of the record. It depends on the record and the range alone.
    pub looks: u64,
}

/// Places of blocks in a record's order, the last one not included: made from `from..to` or `(from, to)`.
#[derive(Clone, Copy, Debug, PartialEq, Eq, Hash)]
pub struct Blocks {
    pub from: usize,
    pub to: usize,
}

impl From<Range<usize>> for Blocks {
    fn from(range: Range<usize>) -> Blocks {
        Blocks { from: range.start, to: range.end }
    }
}

impl From<(usize, usize)> for Blocks {
    fn from((from, to): (usize, usize)) -> Blocks {
        Blocks { from, to }
    }
}

/// All blocks that a record's header speaks of; none if there is no header, so that a call for them is refused.
pub fn blocks(record: &[u8]) -> Blocks {
    match record {
        [_, _, _, _, low, high, ..] => Blocks { from: 0, to: u16::from_le_bytes([*low, *high]).into() },
        _ => Blocks { from: 0, to: 0 },
    }
}

/// Seven lists that a call fills. The two of tokens may differ in length, and so may the four of lines: the shortest counts.
#[derive(Debug, Default)]
pub struct Lists<'a> {
    /// The tokens' text, one after another.
    pub text: &'a mut [u8],
    /// For each token the place in `text` behind it.
    pub ends: &'a mut [u32],
    /// For each token the number of its [`Kind`].
    pub kinds: &'a mut [u8],
    /// For each line its address, 0 if it has none.
    pub addresses: &'a mut [u64],
    /// For each line its indent, plus 256 if it has an address.
    pub marks: &'a mut [u16],
    /// For each line the place of its block in the record, as [`Line::place`] has it.
    pub places: &'a mut [u16],
    /// For each line the number of tokens up to its end.
    pub lines: &'a mut [u32],
}

impl Lists<'_> {
    /// What a call with these sizes left in the lists; none if they do not hold a listing of these sizes.
    pub fn view(&self, sizes: Sizes) -> Option<View<'_>> {
        View::of(
            self.text.get(..sizes.text)?,
            self.ends.get(..sizes.tokens)?,
            self.kinds.get(..sizes.tokens)?,
            self.addresses.get(..sizes.lines)?,
            self.marks.get(..sizes.lines)?,
            self.places.get(..sizes.lines)?,
            self.lines.get(..sizes.lines)?,
        )
    }
}

/// How long the listing of some blocks is, and how much looking it takes: lists of just these lengths suffice. A refusal is none of 12 to 14.
pub fn size(record: &[u8], blocks: impl Into<Blocks>) -> Result<Listed, Refusal> {
    ffi::size(record, blocks.into())
}

/// Lists some blocks into lists that the caller lends, and says how far it filled them and how much looking it took. Entries past the sizes stay
/// as they were; if the call is refused, all of them do.
pub fn list_into(record: &[u8], blocks: impl Into<Blocks>, lists: &mut Lists<'_>) -> Result<Listed, Refusal> {
    ffi::list(record, blocks.into(), lists)
}

/// Lists some blocks into a listing of its own, allocated in just the size needed. A refusal is none of 12 to 14, and allocates
/// nothing.
pub fn list(record: &[u8], blocks: impl Into<Blocks>) -> Result<Listing, Refusal> {
    let blocks = blocks.into();
    let mut listing = Listing::room(size(record, blocks)?.sizes);
    let listed = list_into(record, blocks, &mut listing.lists())?;
    listing.looks = Some(listed.looks);
    Ok(listing)
}

/// A listing that owns its lists. They cannot be changed, so that they always hold together. Listings are equal if their lists are.
#[derive(Clone, Debug)]
pub struct Listing {
    text: Box<[u8]>,
    ends: Box<[u32]>,
    kinds: Box<[u8]>,
    addresses: Box<[u64]>,
    marks: Box<[u16]>,
    places: Box<[u16]>,
    lines: Box<[u32]>,
    looks: Option<u64>,
}

impl PartialEq for Listing {
    fn eq(&self, other: &Listing) -> bool {
        self.view().held() == other.view().held()
    }
}

impl Eq for Listing {}

impl Listing {
    fn room(sizes: Sizes) -> Listing {
        Listing {
            text: vec![0; sizes.text].into(),
            ends: vec![0; sizes.tokens].into(),
            kinds: vec![0; sizes.tokens].into(),
            addresses: vec![0; sizes.lines].into(),
            marks: vec![0; sizes.lines].into(),
            places: vec![0; sizes.lines].into(),
            lines: vec![0; sizes.lines].into(),
            looks: None,
        }
    }

    fn lists(&mut self) -> Lists<'_> {
        Lists {
            text: &mut self.text,
            ends: &mut self.ends,
            kinds: &mut self.kinds,
            addresses: &mut self.addresses,
            marks: &mut self.marks,
            places: &mut self.places,
            lines: &mut self.lines,
        }
    }

    /// The first entries of the lists, in memory of just their size.
    fn cut(self, sizes: Sizes) -> Listing {
        fn first<T: Copy>(list: &[T], n: usize) -> Box<[T]> {
            list[..n].into()
        }
        Listing {
            text: first(&self.text, sizes.text),
            ends: first(&self.ends, sizes.tokens),
            kinds: first(&self.kinds, sizes.tokens),
            addresses: first(&self.addresses, sizes.lines),
            marks: first(&self.marks, sizes.lines),
            places: first(&self.places, sizes.lines),
            lines: first(&self.lines, sizes.lines),
            looks: self.looks,
        }
    }

    pub fn sizes(&self) -> Sizes {
        Sizes { text: self.text.len(), tokens: self.ends.len(), lines: self.lines.len() }
    }

    /// How much looking it took, as [`Listed::looks`]; none of a listing that was read from rows, which do not carry it.
    pub fn looks(&self) -> Option<u64> {
        self.looks
    }

    /// The listing line by line.
    pub fn view(&self) -> View<'_> {
        View::of(&self.text, &self.ends, &self.kinds, &self.addresses, &self.marks, &self.places, &self.lines)
            .expect("an accepted call's lists")
    }
}
