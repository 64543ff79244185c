//! Rows for the spreadsheet (#102, with the place of #107), written a second time from the requests' words and RFC 4180.

pub mod any;
pub mod damage;
pub mod programs;
mod read;
#[cfg(test)]
mod tests;
mod write;
pub mod wrong_lists;

pub use read::rows;
pub use write::file;

use crate::lists::{Left, Lists, TOO_SHORT};

/// A line as a row has it.
#[derive(Clone, Debug, Default, PartialEq, Eq)]
pub struct Row {
    pub address: Option<u64>,
    pub indent: u8,
    pub place: u16,
    pub tokens: Vec<Token>,
}

#[derive(Clone, Debug, PartialEq, Eq)]
pub struct Token {
    pub kind: u8,
    pub text: Vec<u8>,
}

/// "a kind letter (X R N K S A P F for kinds 0 to 7)"
const LETTERS: &[u8; 8] = b"XRNKSAPF";

/// "indents up to 254"
const MOST_INDENT: u16 = 254;

/// "16 if the bytes are not such rows, or the lists and sizes lent for writing hold no such lines"
pub const NOT_ROWS: u8 = 16;

/// What writing left: the answer, the file's size, and the list for it whole.
#[derive(Debug, PartialEq, Eq)]
pub struct Written {
    pub no: u8,
    pub size: usize,
    pub out: Vec<u8>,
}

/// Writing lists of these sizes: 16, then 12 if the list for the file is short.
pub fn write(lists: &Lists, sizes: [usize; 3], mut out: Vec<u8>) -> Written {
    let Some(rows) = held(lists, sizes) else { return Written { no: NOT_ROWS, size: 0, out } };
    let file = file(&rows);
    match out.get_mut(..file.len()) {
        Some(place) => place.copy_from_slice(&file),
        None => return Written { no: TOO_SHORT[0], size: 0, out },
    }
    Written { no: 0, size: file.len(), out }
}

/// Reading a file into lists: 16, then 12 to 14 for lists that are short.
pub fn read(file: &[u8], lent: Lists) -> Left {
    let Some(rows) = rows(file) else { return Left { no: NOT_ROWS, sizes: [0; 3], lists: lent } };
    let (full, sizes) = lists_of(&rows);
    match short(&full, &lent) {
        Some(no) => Left { no, sizes: [0; 3], lists: lent },
        None => Left { no: 0, sizes, lists: over(full, lent) },
    }
}

/// The number of the first list that is shorter than what it is to hold.
fn short(full: &Lists, lent: &Lists) -> Option<u8> {
    (0..7).find(|n| lent.lengths()[*n] < full.lengths()[*n]).map(|n| TOO_SHORT[n])
}

/// What was lent, with the new entries over its first ones.
fn over(full: Lists, mut lent: Lists) -> Lists {
    fn first<T>(new: Vec<T>, old: &mut Vec<T>) {
        let n = new.len();
        old.splice(..n, new);
    }
    first(full.text, &mut lent.text);
    first(full.ends, &mut lent.ends);
    first(full.kinds, &mut lent.kinds);
    first(full.addresses, &mut lent.addresses);
    first(full.marks, &mut lent.marks);
    first(full.places, &mut lent.places);
    first(full.line_ends, &mut lent.line_ends);
    lent
}

/// The lists of rows and their sizes.
pub fn lists_of(rows: &[Row]) -> (Lists, [usize; 3]) {
    let mut lists = Lists::lent([0; 7]);
    for row in rows {
        for token in &row.tokens {
            lists.text.extend(&token.text);
            lists.ends.push(lists.text.len() as u32);
            lists.kinds.push(token.kind);
        }
        lists.addresses.push(row.address.unwrap_or(0));
        lists.marks.push(u16::from(row.indent) + if row.address.is_some() { 256 } else { 0 });
        lists.places.push(row.place);
        lists.line_ends.push(lists.ends.len() as u32);
    }
    let sizes = [lists.text.len(), lists.ends.len(), lists.line_ends.len()];
    (lists, sizes)
}

/// The rows that lists of these sizes hold: "lines of at least one token, no token empty, indents up to 254", "address 0 if none, ends rising
/// to just those sizes"; none if they hold no such lines.
pub fn held(lists: &Lists, [text, tokens, lines]: [usize; 3]) -> Option<Vec<Row>> {
    let bytes = parts(lists.text.get(..text)?, lists.ends.get(..tokens)?)?;
    let all = tokens_of(lists.kinds.get(..tokens)?, &bytes)?;
    let of_lines = parts(&all, lists.line_ends.get(..lines)?)?;
    let (addresses, marks, places) = (lists.addresses.get(..lines)?, lists.marks.get(..lines)?, lists.places.get(..lines)?);
    let row = |n: usize| row(addresses[n], marks[n], places[n], of_lines[n]);
    (0..lines).map(row).collect()
}

/// The parts of a list that end at these places: each with an entry or more, the last one at the list's end.
fn parts<'a, T>(list: &'a [T], ends: &[u32]) -> Option<Vec<&'a [T]>> {
    let mut rest = list;
    let mut out = Vec::new();
    for end in ends {
        let done = list.len() - rest.len();
        let part = (*end as usize).checked_sub(done).filter(|n| (1..=rest.len()).contains(n))?;
        let (first, behind) = rest.split_at(part);
        out.push(first);
        rest = behind;
    }
    rest.is_empty().then_some(out)
}

fn tokens_of(kinds: &[u8], texts: &[&[u8]]) -> Option<Vec<Token>> {
    let token = |(kind, text): (&u8, &&[u8])| (*kind < 8).then(|| Token { kind: *kind, text: text.to_vec() });
    kinds.iter().zip(texts).map(token).collect()
}

/// A mark is the indent, plus 256 if the line has an address.
fn row(address: u64, mark: u16, place: u16, tokens: &[Token]) -> Option<Row> {
    let address = match mark / 256 {
        0 if address == 0 => None,
        1 => Some(address),
        _ => return None,
    };
    let indent = mark % 256;
    (indent <= MOST_INDENT).then(|| Row { address, indent: indent as u8, place, tokens: tokens.to_vec() })
}
