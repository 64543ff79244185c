//! The unwind table: where routines and their further parts lie, and where they go on after an exception.

use std::collections::BTreeSet;

use super::pe::{Image, NAMES};

/// Parts of one routine that are chained at most.
const CHAIN: usize = 32;
/// Scopes of one part that are read at most.
const SCOPES: u32 = 256;

/// What one entry of the unwind table covers.
#[derive(Clone, Copy, Debug, PartialEq, Eq, PartialOrd, Ord)]
pub struct Part {
    pub begin: u64,
    /// The address behind.
    pub end: u64,
    /// Where the routine begins that it is a part of.
    pub routine: u64,
    /// Where its unwind information stands.
    information: u64,
}

/// The parts by rising address. An entry has three addresses: the first, the one behind and that of the unwind information.
pub fn parts(image: &Image, (first, size): (u32, u32)) -> Vec<Part> {
    let entries = u64::from(size / 12).min(NAMES as u64);
    let entry = |n: u64| image.numbers::<3>(image.at(first).wrapping_add(12 * n));
    let part = |[begin, end, information]: [u32; 3]| {
        let routine = image.at(routine(image, begin, information));
        Part { begin: image.at(begin), end: image.at(end), routine, information: image.at(information) }
    };
    let whole = |part: &Part| part.begin < part.end && image.runs_at(part.begin);
    let mut parts: Vec<Part> = (0..entries).map_while(entry).map(part).filter(whole).collect();
    parts.sort_unstable();
    parts
}

/// Of further parts where the routine begins, and where the part does.
pub fn further(parts: &[Part]) -> BTreeSet<(u64, u64)> {
    parts.iter().filter(|part| part.begin != part.routine).map(|part| (part.routine, part.begin)).collect()
}

/// Where the routine of an entry begins: chained information, or an entry in place of information, belongs to a further part of a routine.
fn routine(image: &Image, mut begin: u32, mut information: u32) -> u32 {
    for _ in 0..CHAIN {
        let at = match image.bytes_at(image.at(information)) {
            _ if information & 1 == 1 => image.at(information - 1),
            // Behind four bytes, the third of which counts codes of two bytes; an odd count is followed by two bytes more.
            Some([flags, _, codes, ..]) if flags >> 3 & 4 != 0 => {
                image.at(information) + 4 + 2 * (u64::from(*codes) + u64::from(codes % 2))
            }
            _ => return begin,
        };
        let Some([first, _, next]) = image.numbers(at) else { return begin };
        (begin, information) = (first, next);
    }
    begin
}

impl Part {
    fn holds(&self, address: u64) -> bool {
        (self.begin..self.end).contains(&address)
    }

    /// Where the part goes on after an exception: the targets of its scope table, if all of it is about this part. What a handler of
    /// another language has in the table's place is not.
    pub fn handlers(&self, image: &Image) -> Vec<u64> {
        self.scopes(image)
            .filter(|scopes| scopes.iter().all(|scope| self.is_scope(image, scope)))
            .map_or(Vec::new(), |scopes| scopes.iter().map(|scope| scope[3]).filter(|target| self.holds(*target)).collect())
    }

    /// Behind the codes and the handler's address: a count, then of each scope the first address, the one behind, the filter and the
    /// target.
    fn scopes(&self, image: &Image) -> Option<Vec<[u64; 4]>> {
        let [flags, _, codes, ..] = image.bytes_at(self.information)? else { return None };
        let table = self.information + 8 + 2 * (u64::from(*codes) + u64::from(codes % 2));
        let [count] = image.numbers(table).filter(|[count]| matches!(flags >> 3, 1..=3) && *count <= SCOPES)?;
        let scope = |n: u32| image.numbers::<4>(table + 4 + 16 * u64::from(n)).map(|scope| scope.map(|a| image.at(a)));
        (0..count).map(scope).collect()
    }

    /// A finally block has no target: 0, from the image's base on.
    fn is_scope(&self, image: &Image, [begin, end, _, target]: &[u64; 4]) -> bool {
        begin < end && self.holds(*begin) && *end <= self.end && (self.holds(*target) || *target == image.at(0))
    }
}
