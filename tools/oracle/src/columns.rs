//! Columns before the store (#110), written a second time from the request's words.

pub mod any;
pub mod folder;
pub mod programs;
#[cfg(test)]
mod tests;

use crate::questions;
use crate::record::{Layout, BODY};

/// "number 12 if the output list is shorter than the record"
pub const NO_ROOM: u8 = 12;

/// A call: a record, a list for its bytes in the other order, and one for their number. Answers 0 or a number.
pub type Rearranger = fn(&[u8], &mut [u8], &mut [u64]) -> u8;

/// A record in the other order. Its first four questions get a yes.
type Order = fn(&[u8]) -> Vec<u8>;

/// "byte 0 of every body, then byte 1 of every body, up to byte 91. All else remains in place."
pub fn by_columns(record: &[u8]) -> Vec<u8> {
    let (before, bodies, behind) = parts(record);
    let column = |at: usize| bodies.chunks(BODY).map(move |body| body[at]);
    [before, &(0..BODY).flat_map(column).collect::<Vec<u8>>(), behind].concat()
}

/// "The way back restores every byte."
pub fn by_bodies(stored: &[u8]) -> Vec<u8> {
    let (before, columns, behind) = parts(stored);
    let count = columns.len() / BODY;
    let body = |n: usize| columns.chunks(count).map(move |column| column[n]);
    [before, &(0..count).flat_map(body).collect::<Vec<u8>>(), behind].concat()
}

/// What stands before the bodies, the bodies, and what stands behind them.
fn parts(record: &[u8]) -> (&[u8], &[u8], &[u8]) {
    let layout = Layout::of(record);
    let (before, rest) = record.split_at(layout.bodies);
    let (bodies, behind) = rest.split_at(BODY * layout.i);
    (before, bodies, behind)
}

/// "Only questions 1 to 4 are asked of a record here, in both directions. Checks: after 4, number 12 if the output list is shorter than the record."
fn first_no(record: &[u8], room: usize) -> u8 {
    match questions::first_no_of_four(record) {
        0 if record.len() > room => NO_ROOM,
        no => no,
    }
}

pub fn to_columns(record: &[u8], out: &mut [u8], size: &mut [u64]) -> u8 {
    store(record, out, size, first_no, by_columns)
}

pub fn from_columns(record: &[u8], out: &mut [u8], size: &mut [u64]) -> u8 {
    store(record, out, size, first_no, by_bodies)
}

/// One call. With a number the output list is as it was and the size 0.
fn store(record: &[u8], out: &mut [u8], size: &mut [u64], asked: fn(&[u8], usize) -> u8, order: Order) -> u8 {
    let no = asked(record, out.len());
    let stored = if no == 0 { order(record) } else { vec![] };
    out[..stored.len()].copy_from_slice(&stored);
    size.iter_mut().take(1).for_each(|size| *size = stored.len() as u64);
    no
}
