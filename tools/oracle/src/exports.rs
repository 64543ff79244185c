//! What the port's library exports for the comparison alone, and five functions of the product's that the comparison calls as C does. It is the
//! archive that the crate `cakirotu` links.

use crate::pieces::Tokens;

extern "C" {
    fn record_first_no(bytes: *const u8, len: usize, from: usize, to: usize) -> u8;

    fn piece_tokens(
        rec: *const u8,
        len: usize,
        first: u16,
        instruction: u16,
        what: u8,
        text: *mut u8,
        text_len: usize,
        ends: *mut u32,
        ends_len: usize,
        kinds: *mut u8,
        kinds_len: usize,
    ) -> u64;

    fn cakirotu_read_literal(
        kind: u8,
        text: *const u8,
        text_len: usize,
        out: *mut u8,
        out_len: usize,
        values: *mut u64,
        values_len: usize,
    ) -> u8;

    fn cakirotu_check(rec: *const u8, len: usize, broken: *mut u64, broken_len: usize) -> u8;

    fn cakirotu_to_columns(rec: *const u8, len: usize, out: *mut u8, out_len: usize, size: *mut u64, size_len: usize) -> u8;

    fn cakirotu_from_columns(rec: *const u8, len: usize, out: *mut u8, out_len: usize, size: *mut u64, size_len: usize) -> u8;

    fn cakirotu_routine(k: usize, out: *mut u8, out_len: usize, size: *mut u64, size_len: usize) -> u8;
}

/// The first question of a record and a range that gets a no, or 0.
pub fn first_no(bytes: &[u8], from: usize, to: usize) -> u8 {
    // The function is total: it reads only the bytes lent.
    unsafe { record_first_no(bytes.as_ptr(), bytes.len(), from, to) }
}

/// The tokens of one piece of an instruction, by the number of `pieces::Piece`.
pub fn piece(bytes: &[u8], first: u16, instruction: u16, what: u8) -> Tokens {
    let mut tokens = Tokens { text: vec![0; 2048], ends: vec![0; 64], kinds: vec![0; 64] };
    let Tokens { text, ends, kinds } = &mut tokens;
    // The function is total: it stores nothing past the lists lent.
    let sizes = unsafe {
        piece_tokens(
            bytes.as_ptr(),
            bytes.len(),
            first,
            instruction,
            what,
            text.as_mut_ptr(),
            text.len(),
            ends.as_mut_ptr(),
            ends.len(),
            kinds.as_mut_ptr(),
            kinds.len(),
        )
    };
    tokens.text.truncate((sizes >> 32) as usize);
    tokens.ends.truncate(sizes as u32 as usize);
    tokens.kinds.truncate(sizes as u32 as usize);
    tokens
}

/// The string of a literal token. The binding always lends three values and knows eight kinds; here there may be any number of either.
pub fn read_literal(kind: u8, text: &[u8], out: &mut [u8], values: &mut [u64]) -> u8 {
    // The function is total: it reads the text alone and stores nothing past the two lists.
    unsafe {
        cakirotu_read_literal(kind, text.as_ptr(), text.len(), out.as_mut_ptr(), out.len(), values.as_mut_ptr(), values.len())
    }
}

/// The assumption that a record breaks first. The binding always lends one entry; here there may be any number.
pub fn check(bytes: &[u8], broken: &mut [u64]) -> u8 {
    // The function is total: it reads the record alone and stores nothing past the list.
    unsafe { cakirotu_check(bytes.as_ptr(), bytes.len(), broken.as_mut_ptr(), broken.len()) }
}

/// A record by columns. The binding always lends one entry for the size; here there may be any number.
pub fn to_columns(record: &[u8], out: &mut [u8], size: &mut [u64]) -> u8 {
    // The function is total: it reads the record alone and stores nothing past the two lists.
    unsafe { cakirotu_to_columns(record.as_ptr(), record.len(), out.as_mut_ptr(), out.len(), size.as_mut_ptr(), size.len()) }
}

/// The way back, likewise.
pub fn from_columns(record: &[u8], out: &mut [u8], size: &mut [u64]) -> u8 {
    // The function is total: it reads the record alone and stores nothing past the two lists.
    unsafe { cakirotu_from_columns(record.as_ptr(), record.len(), out.as_mut_ptr(), out.len(), size.as_mut_ptr(), size.len()) }
}

/// A small routine, with any number of entries for the size.
pub fn routine(k: usize, out: &mut [u8], size: &mut [u64]) -> u8 {
    // The function is total: it reads nothing and stores nothing past the two lists.
    unsafe { cakirotu_routine(k, out.as_mut_ptr(), out.len(), size.as_mut_ptr(), size.len()) }
}
