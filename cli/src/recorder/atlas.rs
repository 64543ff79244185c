//! Names and strings at the addresses that a routine names.

use std::collections::{BTreeMap, BTreeSet};

use super::model::{kind, Block, Entry, Insn, Text, ENTRIES, ENTRY_BYTES, TEXT_BYTES};
use super::pe::Image;

/// Characters of a string at least.
const SHORTEST: usize = 4;
/// An immediate below this is a number.
const LOWEST: u64 = 0x1000;

/// The entries by rising address: names first, then strings, as far as they fit.
pub fn atlas(image: &Image, names: &BTreeMap<u64, String>, blocks: &[Block]) -> Vec<Entry> {
    let addresses: BTreeSet<u64> = blocks.iter().flat_map(|b| &b.insns).flat_map(|i| addresses(image, i)).collect();
    let (mut out, mut rest) = (Vec::new(), TEXT_BYTES);
    let mut put = |entry: Entry, out: &mut Vec<Entry>| {
        if out.len() < ENTRIES && entry.text.len() <= rest {
            rest -= entry.text.len();
            out.push(entry);
        }
    };
    let name = |a: &u64| image.imports.get(a).or_else(|| names.get(a));
    for address in &addresses {
        if let Some(text) = name(address) {
            put(Entry { address: *address, kind: Text::Name, text: text.clone().into_bytes() }, &mut out);
        }
    }
    for address in addresses.iter().filter(|a| **a >= LOWEST && name(a).is_none()) {
        if let Some((kind, text)) = image.bytes_at(*address).and_then(string) {
            put(Entry { address: *address, kind, text }, &mut out);
        }
    }
    out.sort_by_key(|e| e.address);
    out
}

/// What an instruction names: targets, the address of its memory, and immediates unless the file says that they are numbers.
fn addresses<'a>(image: &Image, insn: &'a Insn) -> impl Iterator<Item = u64> + 'a {
    let may_name = image.may_name(insn.address, insn.end());
    let named = move |kind: u8| kind == kind::NEAR || may_name && (kind::IMM8..kind::OTHER).contains(&kind);
    let operands = insn.operands.iter().take(insn.count.into()).filter(move |o| named(o.kind)).map(|o| o.number);
    operands.chain(insn.fixed_memory())
}

/// The string that the bytes begin with.
pub fn string(bytes: &[u8]) -> Option<(Text, Vec<u8>)> {
    let narrow = text(bytes.iter().map(|b| u16::from(*b)));
    let wide = || text(bytes.chunks_exact(2).map(|b| u16::from_le_bytes([b[0], b[1]])));
    narrow.map(|t| (Text::String, t)).or_else(|| wide().map(|t| (Text::Wide, t)))
}

/// The characters up to a 0; none if they are too few, too many or not all printable.
fn text(characters: impl Iterator<Item = u16>) -> Option<Vec<u8>> {
    let mut out = Vec::new();
    for character in characters.take(ENTRY_BYTES + 1) {
        match character {
            0 => return (out.len() >= SHORTEST).then_some(out),
            9 | 10 | 13 | 0x20..=0x7e => out.push(character as u8),
            _ => return None,
        }
    }
    None
}
