//! What the programs `to_csv` and `from_csv` print, and fields for readers that others wrote.

use super::write::{file, letter};
use super::{lists_of, rows, Row, NOT_ROWS};
use crate::listing::{self, Listing};
use crate::lists::{self, Lists};

/// What the program `from_csv` reads at most.
const MOST_INPUT: usize = 262_144;

/// The rows of what `listing` prints of a record, or `no` and the number; or the message of the Rust's panic.
pub fn to_csv(input: &[u8]) -> Result<Vec<u8>, String> {
    let listed = match listing::program_lists(input)? {
        Ok(listed) => listed,
        Err(no) => return Ok(listing::refusal(no)),
    };
    let lists = Lists::lent(lists::fitting(listed.sizes())).filled(&listed);
    let rows = super::held(&lists, listed.sizes()).ok_or("a listing holds no rows")?;
    Ok(file(&rows))
}

/// What `listing` would print of rows, or `no 16`.
pub fn from_csv(input: &[u8]) -> Vec<u8> {
    match rows(input).filter(|_| input.len() <= MOST_INPUT) {
        Some(rows) => listing_of(&rows).print(),
        None => listing::refusal(NOT_ROWS),
    }
}

fn listing_of(rows: &[Row]) -> Listing {
    let (l, _) = lists_of(rows);
    Listing {
        text: l.text,
        token_ends: l.ends,
        token_kinds: l.kinds,
        line_addresses: l.addresses,
        line_marks: l.marks,
        line_places: l.places,
        line_ends: l.line_ends,
        ..Listing::default()
    }
}

/// The fields of rows without their quotes, each in hexadecimal on a line of its own, and `end` behind each row.
pub fn fields(rows: &[Row]) -> String {
    rows.iter().map(|row| plain(row).iter().map(|field| hex(field) + "\n").collect::<String>() + "end\n").collect()
}

fn plain(row: &Row) -> Vec<Vec<u8>> {
    let address = row.address.map_or(String::new(), |a| format!("{a:016X}"));
    let head = [address, row.indent.to_string(), row.place.to_string()].map(String::into_bytes);
    let tokens = row.tokens.iter().flat_map(|token| [vec![letter(token)], token.text.clone()]);
    head.into_iter().chain(tokens).collect()
}

fn hex(field: &[u8]) -> String {
    field.iter().map(|byte| format!("{byte:02x}")).collect()
}
