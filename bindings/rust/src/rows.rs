//! A listing as rows, comma-separated values after RFC 4180, and back.

use crate::{ffi, Listing, Lists, Refusal, Sizes, View};

/// Seven lists that [`write_rows_into`] reads, as [`Lists`] has them.
#[derive(Clone, Copy, Debug, Default, PartialEq, Eq)]
pub struct Held<'a> {
    pub text: &'a [u8],
    pub ends: &'a [u32],
    pub kinds: &'a [u8],
    pub addresses: &'a [u64],
    pub marks: &'a [u16],
    pub places: &'a [u16],
    pub lines: &'a [u32],
}

/// Writes what lists hold up to these sizes as rows into a list that the caller lends, and says how many bytes they are. Bytes past them
/// stay as they were; if the call is refused, all of them do. A refusal is [`Refusal::Rows`] or [`Refusal::TextRoom`].
pub fn write_rows_into(lists: &Held<'_>, sizes: Sizes, out: &mut [u8]) -> Result<usize, Refusal> {
    ffi::write_rows(lists, sizes, out)
}

/// Writes a listing as rows. Refused, with [`Refusal::Rows`], are only lines that rows cannot carry: one without tokens, with an empty
/// token, with indent 255, or with an address in the list where its mark has none. No listing of this library has such.
pub fn write_rows(view: View<'_>) -> Result<Vec<u8>, Refusal> {
    let mut rows = vec![0; most_bytes(view.sizes())];
    let size = write_rows_into(&view.held(), view.sizes(), &mut rows)?;
    rows.truncate(size);
    Ok(rows)
}

/// Reads rows into lists that the caller lends, and says how far it filled them: just those bytes are accepted that can be written. Entries
/// past the sizes stay as they were; if the call is refused, all of them do. A refusal is [`Refusal::Rows`] or one of 12 to 14.
pub fn read_rows_into(rows: &[u8], lists: &mut Lists<'_>) -> Result<Sizes, Refusal> {
    ffi::read_rows(rows, lists)
}

/// Reads rows into a listing of its own, allocated in just the size needed. The only refusal is [`Refusal::Rows`].
pub fn read_rows(rows: &[u8]) -> Result<Listing, Refusal> {
    let mut room = Listing::room(most_sizes(rows.len()));
    let sizes = read_rows_into(rows, &mut room.lists())?;
    Ok(room.cut(sizes))
}

/// A line has at most 16 digits of address, 3 of indent and 5 of place, two commas, CR and LF; a token two commas, a letter and two quotes
/// beside its text, in which every byte may be a quote.
fn most_bytes(sizes: Sizes) -> usize {
    2 * sizes.text + 5 * sizes.tokens + 28 * sizes.lines
}

/// A token has at least `,X,"x"`, a line `,0,0` before its first token and CR LF behind its last.
fn most_sizes(bytes: usize) -> Sizes {
    Sizes { text: bytes, tokens: bytes / 6, lines: bytes / 12 }
}
