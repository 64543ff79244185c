//! A record's instructions by columns, for a store, and back.

use crate::{ffi, Refusal};

/// A record with its instruction bodies by columns, in a list that the caller lends: byte 0 of every body, then byte 1 of every body, up to byte 91, and
/// all else in place. Answers how many bytes that are: as many as the record has. Bytes past them stay as they were; if the call is refused, all of
/// them do. A refusal is [`Refusal::Header`], [`Refusal::Settings`], [`Refusal::Limits`], [`Refusal::Length`] or [`Refusal::TextRoom`]: nothing else is
/// asked of the record.
pub fn to_columns_into(record: &[u8], out: &mut [u8]) -> Result<usize, Refusal> {
    ffi::to_columns(record, out)
}

/// The way back, likewise: what [`to_columns_into`] stored comes back byte for byte.
pub fn from_columns_into(stored: &[u8], out: &mut [u8]) -> Result<usize, Refusal> {
    ffi::from_columns(stored, out)
}

/// A record by columns in memory of its own. A refusal is one of the first four.
pub fn to_columns(record: &[u8]) -> Result<Vec<u8>, Refusal> {
    in_own(record, to_columns_into)
}

/// The way back, likewise.
pub fn from_columns(stored: &[u8]) -> Result<Vec<u8>, Refusal> {
    in_own(stored, from_columns_into)
}

/// A list of the record's length suffices. A record that is refused is copied for nothing, whatever its length.
fn in_own(record: &[u8], into: fn(&[u8], &mut [u8]) -> Result<usize, Refusal>) -> Result<Vec<u8>, Refusal> {
    let mut out = vec![0; record.len()];
    into(record, &mut out)?;
    Ok(out)
}
