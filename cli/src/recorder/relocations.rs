//! Where words stand that are changed with the image's base, and are therefore addresses.

use object::pe::{IMAGE_REL_BASED_DIR64, IMAGE_REL_BASED_HIGHLOW};

use super::pe::Image;

/// Blocks that are read at most.
const BLOCKS: usize = 65_536;
/// Words that are read at most.
const WORDS: usize = 1 << 22;

/// The addresses of the words, each once and rising. A block has a page, its own size, and two bytes for each word: a kind and the place
/// in the page.
pub fn relocated(image: &Image, (first, size): (u32, u32)) -> Vec<u64> {
    let mut out = Vec::new();
    let mut at = image.at(first);
    let end = at.saturating_add(size.into());
    for _ in 0..BLOCKS {
        let Some([page, length]) = image.numbers(at).filter(|[_, length]| at < end && *length >= 8) else { break };
        let bytes = image.bytes_at(at).unwrap_or(&[]);
        let entries = bytes[8..bytes.len().min(length as usize).max(8)].chunks_exact(2).map(|b| u16::from_le_bytes([b[0], b[1]]));
        let whole = entries.filter(|e| [IMAGE_REL_BASED_HIGHLOW, IMAGE_REL_BASED_DIR64].contains(&(e >> 12)));
        let rest = WORDS - out.len();
        out.extend(whole.take(rest).map(|e| image.at(page).wrapping_add(u64::from(e & 0xfff))));
        at = at.saturating_add(length.into());
    }
    out.sort_unstable();
    out.dedup();
    out
}
