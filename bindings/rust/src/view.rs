//! A listing line by line, over lists that someone else owns.

use crate::{Held, Sizes};

/// What a token is.
#[derive(Clone, Copy, Debug, PartialEq, Eq, Hash)]
#[repr(u8)]
pub enum Kind {
    Text,
    Register,
    Number,
    Keyword,
    /// A name, a label, or an address with its prefix.
    Symbol,
    /// A string's literal.
    Address,
    Punct,
    Prefix,
}

impl Kind {
    /// Every kind, by its number.
    pub const ALL: [Kind; 8] =
        [Kind::Text, Kind::Register, Kind::Number, Kind::Keyword, Kind::Symbol, Kind::Address, Kind::Punct, Kind::Prefix];

    pub fn from_number(number: u8) -> Option<Kind> {
        Kind::ALL.get(usize::from(number)).copied()
    }
}

/// A mark has the indent below this, and this if the line has an address.
const ADDRESSED: u16 = 256;

/// Lists that hold together: each of its size, ends that never fall and reach the sizes, kinds that exist.
#[derive(Clone, Copy, Debug)]
pub struct View<'a> {
    text: &'a [u8],
    ends: &'a [u32],
    kinds: &'a [u8],
    addresses: &'a [u64],
    marks: &'a [u16],
    places: &'a [u16],
    lines: &'a [u32],
}

impl<'a> View<'a> {
    /// None if the lists do not hold together.
    pub fn of(
        text: &'a [u8],
        ends: &'a [u32],
        kinds: &'a [u8],
        addresses: &'a [u64],
        marks: &'a [u16],
        places: &'a [u16],
        lines: &'a [u32],
    ) -> Option<View<'a>> {
        let lengths = kinds.len() == ends.len() && [addresses.len(), marks.len(), places.len()] == [lines.len(); 3];
        let known = kinds.iter().all(|kind| Kind::from_number(*kind).is_some()) && marks.iter().all(|mark| *mark < 2 * ADDRESSED);
        let whole = rise_to(ends, text.len()) && rise_to(lines, ends.len());
        (lengths && known && whole).then_some(View { text, ends, kinds, addresses, marks, places, lines })
    }

    pub fn sizes(&self) -> Sizes {
        Sizes { text: self.text.len(), tokens: self.ends.len(), lines: self.lines.len() }
    }

    /// The lists themselves.
    pub fn held(&self) -> Held<'a> {
        let View { text, ends, kinds, addresses, marks, places, lines } = *self;
        Held { text, ends, kinds, addresses, marks, places, lines }
    }

    /// The lines in order.
    pub fn lines(&self) -> Lines<'a> {
        Lines { view: *self, at: 0 }
    }

    /// The text of all lines, with nothing in between.
    pub fn text(&self) -> &'a [u8] {
        self.text
    }

    fn line(&self, at: usize) -> Line<'a> {
        let mark = self.marks[at];
        Line {
            address: (mark >= ADDRESSED).then_some(self.addresses[at]),
            indent: (mark % ADDRESSED) as u8,
            place: self.places[at].into(),
            view: *self,
            first: before(self.lines, at),
            end: self.lines[at] as usize,
        }
    }
}

/// Ends that never fall, the last one at `all`.
fn rise_to(ends: &[u32], all: usize) -> bool {
    ends.windows(2).all(|pair| pair[0] <= pair[1]) && ends.last().map_or(0, |end| *end as usize) == all
}

/// Where the entry at a place begins: where the one before ends.
fn before(ends: &[u32], at: usize) -> usize {
    if at == 0 {
        0
    } else {
        ends[at - 1] as usize
    }
}

/// A line of a listing.
#[derive(Clone, Copy, Debug)]
pub struct Line<'a> {
    /// That of the instruction or block that the line is written for.
    pub address: Option<u64>,
    pub indent: u8,
    /// The place of its block in the record, as [`Blocks`](crate::Blocks) counts them, in a listing of some blocks too: for a label, an
    /// instruction or an opening line the block it was written for, for a lone closing brace the block whose branch opened it, for a
    /// while-line the loop's last block.
    pub place: usize,
    view: View<'a>,
    first: usize,
    end: usize,
}

impl<'a> Line<'a> {
    pub fn tokens(&self) -> Tokens<'a> {
        Tokens { view: self.view, at: self.first, end: self.end }
    }

    /// The line's text, without address and indent.
    pub fn text(&self) -> &'a [u8] {
        &self.view.text[before(self.view.ends, self.first)..before(self.view.ends, self.end)]
    }
}

/// A token of a line.
#[derive(Clone, Copy, Debug, PartialEq, Eq)]
pub struct Token<'a> {
    pub kind: Kind,
    pub text: &'a [u8],
}

/// The lines of a listing.
#[derive(Clone, Debug)]
pub struct Lines<'a> {
    view: View<'a>,
    at: usize,
}

impl<'a> Iterator for Lines<'a> {
    type Item = Line<'a>;

    fn next(&mut self) -> Option<Line<'a>> {
        let line = (self.at < self.view.lines.len()).then(|| self.view.line(self.at))?;
        self.at += 1;
        Some(line)
    }

    fn size_hint(&self) -> (usize, Option<usize>) {
        let left = self.view.lines.len() - self.at;
        (left, Some(left))
    }
}

impl ExactSizeIterator for Lines<'_> {}

/// The tokens of a line.
#[derive(Clone, Debug)]
pub struct Tokens<'a> {
    view: View<'a>,
    at: usize,
    end: usize,
}

impl<'a> Iterator for Tokens<'a> {
    type Item = Token<'a>;

    fn next(&mut self) -> Option<Token<'a>> {
        if self.at == self.end {
            return None;
        }
        let View { text, ends, kinds, .. } = self.view;
        let text = &text[before(ends, self.at)..ends[self.at] as usize];
        let kind = Kind::from_number(kinds[self.at])?;
        self.at += 1;
        Some(Token { kind, text })
    }

    fn size_hint(&self) -> (usize, Option<usize>) {
        let left = self.end - self.at;
        (left, Some(left))
    }
}

impl ExactSizeIterator for Tokens<'_> {}
