//! The processor's route, from the record alone: "met by following the edges from the first block: True if taken, Uncond after a jump, else Fall or
//! False".

use super::{Route, Stop, Walk};
use crate::demand3;
use crate::listing;
use crate::record::{edge, kind, mnemonic as m, Block, Insn, Record};

pub struct Processor<'a> {
    record: &'a Record,
    /// For each instruction of the record whether it is silent, by demand 3's rule.
    silent: Vec<bool>,
    /// For each block the number of its first instruction.
    first: Vec<usize>,
}

/// Where an instruction leads.
enum Leads {
    On,
    Return,
    Leave,
    Branch,
    Jump,
}

impl<'a> Processor<'a> {
    /// Which instructions are silent depends on the regions, which are those of the Rust's listing.
    pub fn new(record: &'a Record) -> Result<Processor<'a>, String> {
        let silent = demand3::silent(record, &listing::list_record(record, 0, record.blocks.len())?)?;
        let first = record.blocks.iter().scan(0, |n, b| Some(std::mem::replace(n, *n + b.insns.len()))).collect();
        Ok(Processor { record, silent, first })
    }

    pub fn route(&self, outcomes: &[bool], most: usize) -> Route {
        let mut walk = Walk::new(outcomes, most);
        // Between two instructions that are met each block is passed at most once, if the record is as assumed.
        let mut idle = 0;
        let mut at = Some(0);
        let stop = loop {
            let met = walk.met.len();
            match at.ok_or(Stop::Lost).and_then(|place| self.block(place, &mut walk)) {
                Ok(next) => at = next,
                Err(stop) => break stop,
            }
            idle = if walk.met.len() > met { 0 } else { idle + 1 };
            if idle > self.record.blocks.len() {
                break Stop::Silent;
            }
        };
        walk.ended(stop)
    }

    /// Goes through a block and answers the place of the next one.
    fn block(&self, place: usize, walk: &mut Walk) -> Result<Option<usize>, Stop> {
        let block = self.record.blocks.get(place).ok_or(Stop::Lost)?;
        for (n, insn) in block.insns.iter().enumerate() {
            if !self.silent[self.first[place] + n] {
                walk.meet(place, insn.address)?;
            }
            let leads = self.leads(insn);
            if !matches!(leads, Leads::On) {
                return self.turn(block, leads, walk);
            }
        }
        Ok(self.along(block, &[edge::FALL, edge::FALSE]))
    }

    fn turn(&self, block: &Block, leads: Leads, walk: &mut Walk) -> Result<Option<usize>, Stop> {
        match leads {
            Leads::Return => Err(Stop::Returned),
            Leads::Leave => Err(Stop::Left),
            Leads::Jump => Ok(self.along(block, &[edge::UNCOND])),
            Leads::Branch if walk.taken()? => Ok(self.along(block, &[edge::TRUE])),
            _ => Ok(self.along(block, &[edge::FALL, edge::FALSE])),
        }
    }

    /// "Endings are a return, an indirect jump and a jump to no block of the record." A setcc or cmovcc goes nowhere.
    fn leads(&self, insn: &Insn) -> Leads {
        let near = insn.operands[0].kind == kind::NEAR;
        match insn.mnemonic {
            m::RET => Leads::Return,
            m::JMP if near && place_at(self.record, insn.operands[0].number).is_some() => Leads::Jump,
            m::JMP => Leads::Leave,
            m::SETCC | m::CMOVCC => Leads::On,
            _ if insn.condition != 0 && near => Leads::Branch,
            _ => Leads::On,
        }
    }

    /// Where the block's first edge of one of these kinds leads.
    fn along(&self, block: &Block, kinds: &[u8]) -> Option<usize> {
        place_at(self.record, block.edges.iter().find(|e| kinds.contains(&e.kind))?.to)
    }
}

/// The place of the block that starts at an address.
pub fn place_at(record: &Record, address: u64) -> Option<usize> {
    record.blocks.iter().position(|b| b.start == address)
}
