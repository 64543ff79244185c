//! A string back from its literal in a listing.

use crate::{ffi, Refusal, Token};

/// The most bytes that a literal gives.
pub const LITERAL_BYTES: usize = 80;

/// The string of a literal.
#[derive(Clone, Copy, Debug, Default, PartialEq, Eq, Hash)]
pub struct Literal<B> {
    /// A byte for each character, of a wide string too; of one that was cut the first 80.
    pub bytes: B,
    pub wide: bool,
    /// Whether the string has more characters than its literal.
    pub cut: bool,
}

/// The string of a literal token in a list that the caller lends, of which [`LITERAL_BYTES`] always suffice. Just those texts are accepted that a
/// listing has for a string; a string of at most 80 characters comes back as it was. Bytes past it stay as they were; if the call is refused, all
/// of them do. A refusal is [`Refusal::Literal`] or [`Refusal::TextRoom`].
pub fn read_literal_into<'a>(token: Token<'_>, out: &'a mut [u8]) -> Result<Literal<&'a [u8]>, Refusal> {
    let [count, wide, cut] = ffi::read_literal(token.kind as u8, token.text, out)?;
    Ok(Literal { bytes: &out[..count], wide: wide != 0, cut: cut != 0 })
}

/// The string of a literal token in memory of its own, of just its size. The only refusal is [`Refusal::Literal`].
pub fn read_literal(token: Token<'_>) -> Result<Literal<Vec<u8>>, Refusal> {
    let mut room = [0; LITERAL_BYTES];
    let Literal { bytes, wide, cut } = read_literal_into(token, &mut room)?;
    Ok(Literal { bytes: bytes.to_vec(), wide, cut })
}
