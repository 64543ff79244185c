//! A driver file's routines as records (docs/RECORD.md).

mod atlas;
mod blocks;
mod decode;
mod extent;
mod find;
mod frame;
mod imports;
mod model;
mod pe;
mod relocations;
mod tables;
#[cfg(test)]
mod tests;
mod unwind;
mod values;
mod write;

use std::collections::{BTreeMap, BTreeSet};
use std::fmt;

use cakirotu::Refusal;
use decode::Decoder;
use extent::{Extents, Origin, Starts};
use model::{Block, Record};
use pe::Image;

/// One routine of a driver.
pub struct Routine {
    pub address: u64,
    pub name: Option<String>,
    pub blocks: usize,
    pub instructions: usize,
    pub record: Result<Vec<u8>, Unrecorded>,
}

/// Why a routine has no record.
#[derive(Clone, Debug, PartialEq, Eq)]
pub enum Unrecorded {
    /// It is over a limit, so that question 3 would refuse a record.
    Limit(String),
    /// A register that has no number, bytes that do not decode, or another thing that a record cannot hold.
    Other(String),
}

impl fmt::Display for Unrecorded {
    fn fmt(&self, f: &mut fmt::Formatter<'_>) -> fmt::Result {
        match self {
            Unrecorded::Limit(why) => write!(f, "no {}: {why}", Refusal::Limits.number()),
            Unrecorded::Other(why) => write!(f, "no record: {why}"),
        }
    }
}

/// What was found in a driver.
pub struct Driver {
    /// By rising address.
    pub routines: Vec<Routine>,
    /// Whether the search for routines ended at a limit, and not because there are no more.
    pub may_have_more: bool,
}

/// Every routine of a PE32 or PE32+ file; an error if the bytes are no such file.
pub fn record_driver(file: &[u8]) -> Result<Driver, String> {
    let image = Image::parse(file)?;
    let decoder = Decoder::new(image.bits)?;
    let starts = find::starts(&image, &decoder, find::budget(file));
    let names = names(&image, &decoder, &starts);
    let extents = Extents { image: &image, decoder: &decoder, starts: &starts };
    let spans = image.spans();
    let mut recorder = Recorder { extents, names: &names, spans, budget: find::budget(file), reached: BTreeSet::new() };
    let (first, then): (Vec<_>, Vec<_>) = starts.origins().partition(|(_, origin)| *origin <= Origin::Called);
    let mut routines: Vec<Routine> = first.into_iter().map(|(start, _)| recorder.routine(start)).collect();
    routines.extend(then.into_iter().filter_map(|(start, _)| recorder.outside(start)));
    routines.sort_by_key(|r| r.address);
    Ok(Driver { routines, may_have_more: starts.is_cut_short })
}

/// The names of routines; one that only jumps through an import's slot has the import's.
fn names(image: &Image, decoder: &Decoder, starts: &Starts) -> BTreeMap<u64, String> {
    let mut names = image.names.clone();
    for (start, _) in starts.origins() {
        let insn = image.bytes_at(start).and_then(|bytes| decoder.decode(bytes, start)).map(|d| d.insn);
        let slot = insn.filter(|i| i.mnemonic == model::mnemonic::JMP).and_then(|i| i.fixed_memory());
        if let Some(import) = slot.and_then(|a| image.imports.get(&a)) {
            names.entry(start).or_insert_with(|| import.clone());
        }
    }
    names
}

struct Recorder<'a> {
    extents: Extents<'a>,
    names: &'a BTreeMap<u64, String>,
    spans: Vec<(u64, u64)>,
    /// Instructions that are still followed in the whole file.
    budget: usize,
    /// Addresses of the instructions that some routine has.
    reached: BTreeSet<u64>,
}

impl Recorder<'_> {
    /// The routine at a start that is only pointed to or jumped to, if it is in no other.
    fn outside(&mut self, start: u64) -> Option<Routine> {
        (!self.reached.contains(&start)).then(|| self.routine(start))
    }

    fn routine(&mut self, start: u64) -> Routine {
        let name = self.names.get(&start).cloned();
        if self.budget == 0 {
            let record = Err(Unrecorded::Other("more code than is decoded of one file".into()));
            return Routine { address: start, name, blocks: 0, instructions: 0, record };
        }
        let (follower, followed) = self.extents.followed(start);
        self.budget = self.budget.saturating_sub(followed.steps);
        self.reached.extend(followed.insns().map(|i| i.address));
        let mut blocks = follower.blocks(&followed);
        let instructions = blocks.iter().map(|b| b.insns.len()).sum();
        let record = match followed.problem {
            Some(problem) => Err(problem),
            None => self.record(&mut blocks),
        };
        Routine { address: start, name, blocks: blocks.len(), instructions, record }
    }

    fn record(&self, blocks: &mut [Block]) -> Result<Vec<u8>, Unrecorded> {
        let image = self.extents.image;
        let (frame, shift) = frame::frame(image.bits, blocks);
        frame::mark(image.bits, frame, blocks);
        let atlas = atlas::atlas(image, self.names, blocks);
        write::bytes(&Record { bits: image.bits, frame, shift, blocks, atlas: &atlas, spans: &self.spans })
    }
}
