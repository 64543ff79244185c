//! All small routines, by number, as records for tests.

use crate::{ffi, Refusal};

/// How many there are: 2 of one block, 18 of two and 256 of three.
pub const ROUTINES: usize = 276;

/// The most bytes that the record of one has.
pub const ROUTINE_BYTES: usize = 405;

/// A small routine as a record that every question accepts, in a list that the caller lends. Answers how many bytes that are; [`ROUTINE_BYTES`] always suffice.
/// Bytes past them stay as they were; if the call is refused, all of them do. A refusal is [`Refusal::Routine`] or [`Refusal::TextRoom`].
pub fn routine_into(number: usize, out: &mut [u8]) -> Result<usize, Refusal> {
    ffi::routine(number, out)
}

/// The same in memory of its own. A refusal is [`Refusal::Routine`], of a number of [`ROUTINES`] or more.
pub fn routine(number: usize) -> Result<Vec<u8>, Refusal> {
    let mut out = [0; ROUTINE_BYTES];
    let size = routine_into(number, &mut out)?;
    Ok(out[..size].to_vec())
}
