//! Following the listing (#109), written a second time from the request's words: the listing's route from its lines alone, the processor's from
//! the record alone, and what the request assumes of a record.

pub mod assumed;
pub mod listed;
pub mod processor;
#[cfg(test)]
mod tests;

use crate::listing::Listing;
use crate::lists::{fitting, Lists};
use crate::rows::{self, Row};

/// Why a route met no more.
#[derive(Clone, Copy, Debug, PartialEq, Eq, PartialOrd, Ord)]
pub enum Stop {
    /// As many were met as asked for.
    Enough,
    /// "a return"
    Returned,
    /// "an indirect jump and a jump to no block of the record": one line can be of either.
    Left,
    /// "where outcomes run out"
    Dry,
    /// Behind the last line, at a name or a brace that leads nowhere, or at an edge that does. No record that is as assumed comes to it.
    Lost,
    /// Silent instructions without end. No record that is as assumed comes to it.
    Silent,
}

/// The instructions that were met, each by its block's place and its address, and why no more.
#[derive(Clone, Debug, PartialEq, Eq)]
pub struct Route {
    pub met: Vec<(usize, u64)>,
    pub stop: Stop,
}

/// What a walk is given: "for any outcomes, branch taken or not, and any n".
pub struct Walk<'a> {
    outcomes: std::slice::Iter<'a, bool>,
    most: usize,
    met: Vec<(usize, u64)>,
}

impl Walk<'_> {
    pub fn new(outcomes: &[bool], most: usize) -> Walk<'_> {
        Walk { outcomes: outcomes.iter(), most, met: Vec::new() }
    }

    /// Meets an instruction. Behind the last one that is asked for nothing is decided, whatever it is.
    fn meet(&mut self, place: usize, address: u64) -> Result<(), Stop> {
        self.more()?;
        self.met.push((place, address));
        self.more()
    }

    fn more(&self) -> Result<(), Stop> {
        (self.met.len() < self.most).then_some(()).ok_or(Stop::Enough)
    }

    /// The next branch is taken or not.
    fn taken(&mut self) -> Result<bool, Stop> {
        self.outcomes.next().copied().ok_or(Stop::Dry)
    }

    fn ended(self, stop: Stop) -> Route {
        Route { met: self.met, stop }
    }
}

/// A listing's lines.
pub fn lines_of(listing: &Listing) -> Vec<Row> {
    let sizes = listing.sizes();
    rows::held(&Lists::lent(fitting(sizes)).filled(listing), sizes).expect("a listing's lines are rows")
}
