//! The command table for the keyer (#113), written a second time from the request's words. The lines are gone through once, from the first on, and
//! of each block it is kept what its lines since its previous call line set the register to.

pub mod any;
pub mod listed;
pub mod programs;
#[cfg(test)]
mod tests;

use std::collections::HashMap;

use crate::lists::Lists;
use crate::literals;
use crate::rows::{self, Row, NOT_ROWS};

/// "19 if either name is empty, asked first"
pub const NO_NAME: u8 = 19;

/// "12 to 14 if the table's lists for bytes, rows and addresses are short"
pub const NO_ROOM: [u8; 3] = [12, 13, 14];

/// The kinds of a register's token and of a Punct.
pub const REGISTER: u8 = 1;
pub const PUNCT: u8 = 6;

pub const ASSIGNS: &[u8] = b" = ";

/// "the name of the sending call and a register name"
#[derive(Clone, Copy, Debug, PartialEq, Eq)]
pub struct Names<'a> {
    pub call: &'a [u8],
    pub register: &'a [u8],
}

/// The lists that a call fills.
pub struct Lent<'a> {
    pub bytes: &'a mut [u8],
    pub rows: &'a mut [u64],
    pub addresses: &'a mut [u64],
}

/// How many bytes and rows a table has, or a number.
pub type Made = Result<[usize; 2], u8>;

/// A call: a listing's lists, their sizes, both names, and lists for the table.
pub type Maker = fn(&Lists, [usize; 3], Names<'_>, Lent<'_>) -> Made;

/// "the call's address and the bytes set for it"
#[derive(Clone, Debug, PartialEq, Eq)]
pub struct Entry {
    pub address: u64,
    pub bytes: Option<Vec<u8>>,
}

/// "for each call line whose third token's text is the call name"; "Rows keep listing order."
pub fn entries(lines: &[Row], names: Names<'_>) -> Vec<Entry> {
    // By the block's place. A line "whose first token is that register" hides all before it, also if it sets no bytes.
    let mut set: HashMap<u16, Option<Vec<u8>>> = HashMap::new();
    let mut entries = Vec::new();
    for line in lines {
        if let Some((address, called)) = call(line) {
            let bytes = set.remove(&line.place).flatten();
            entries.extend((called == names.call).then_some(Entry { address, bytes }));
        } else if line.tokens.first().is_some_and(|first| first.kind == REGISTER && first.text == names.register) {
            set.insert(line.place, bytes_set(line));
        }
    }
    entries
}

/// The address and the third token's text of a call line: it "has an address and begins with a register, ` = ` of any kind, one token and a Punct
/// that begins with `(`".
pub fn call(line: &Row) -> Option<(u64, &[u8])> {
    let [first, second, third, fourth, ..] = &line.tokens[..] else { return None };
    let begins = first.kind == REGISTER && second.text == ASSIGNS && fourth.kind == PUNCT && fourth.text.starts_with(b"(");
    line.address.filter(|_| begins).map(|address| (address, &third.text[..]))
}

/// The bytes of a line's literal, "if its second is ` = ` and its third a literal". "A wide literal yields one byte a character. A cut literal,
/// any other second or third token .. gives none".
fn bytes_set(line: &Row) -> Option<Vec<u8>> {
    let [_, second, third, ..] = &line.tokens[..] else { return None };
    let is_literal = second.text == ASSIGNS && third.kind == literals::ADDRESS;
    let literal = literals::string(&third.text).filter(|literal| is_literal && !literal.cut)?;
    Some(literal.bytes)
}

/// A table as its three lists hold it.
#[derive(Debug, Default, PartialEq, Eq)]
pub struct Columns {
    pub bytes: Vec<u8>,
    /// "A row is a u64: twice its byte end, plus 1 if none."
    pub rows: Vec<u64>,
    pub addresses: Vec<u64>,
}

pub fn columns(entries: &[Entry]) -> Columns {
    let mut columns = Columns::default();
    for Entry { address, bytes } in entries {
        columns.bytes.extend(bytes.iter().flatten());
        columns.rows.push(2 * columns.bytes.len() as u64 + u64::from(bytes.is_none()));
        columns.addresses.push(*address);
    }
    columns
}

/// One call. With a number the three lists stay as they were.
pub fn make(lists: &Lists, sizes: [usize; 3], names: Names<'_>, lent: Lent<'_>) -> Made {
    if names.call.is_empty() || names.register.is_empty() {
        return Err(NO_NAME);
    }
    let lines = rows::held(lists, sizes).ok_or(NOT_ROWS)?;
    store(&columns(&entries(&lines, names)), lent)
}

fn store(table: &Columns, lent: Lent<'_>) -> Made {
    let bytes = lent.bytes.get_mut(..table.bytes.len()).ok_or(NO_ROOM[0])?;
    let rows = lent.rows.get_mut(..table.rows.len()).ok_or(NO_ROOM[1])?;
    let addresses = lent.addresses.get_mut(..table.addresses.len()).ok_or(NO_ROOM[2])?;
    bytes.copy_from_slice(&table.bytes);
    rows.copy_from_slice(&table.rows);
    addresses.copy_from_slice(&table.addresses);
    Ok([bytes.len(), rows.len()])
}
