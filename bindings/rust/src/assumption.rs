//! Whether a listing may be followed.

use std::fmt;

use crate::{ffi, Refusal};

/// What must hold of a record so that following its listing leads where the processor goes. A reader that takes the kinds of tokens into account
/// may do without [`Assumption::Cases`], [`Assumption::Names`] and [`Assumption::Words`].
#[derive(Clone, Copy, Debug, PartialEq, Eq, PartialOrd, Ord, Hash)]
#[repr(u8)]
pub enum Assumption {
    Blocks = 1,
    Turns,
    Marks,
    Sets,
    Cases,
    Starts,
    Names,
    Words,
    Jumps,
    Falls,
    Branches,
    Labels,
}

impl Assumption {
    /// Every assumption, in the order in which they are asked.
    pub const ALL: [Assumption; 12] = [
        Assumption::Blocks,
        Assumption::Turns,
        Assumption::Marks,
        Assumption::Sets,
        Assumption::Cases,
        Assumption::Starts,
        Assumption::Names,
        Assumption::Words,
        Assumption::Jumps,
        Assumption::Falls,
        Assumption::Branches,
        Assumption::Labels,
    ];

    /// 1 to 12.
    pub fn number(self) -> u8 {
        self as u8
    }

    /// What is assumed.
    pub fn text(self) -> &'static str {
        match self {
            Assumption::Blocks => "there is at least one block",
            Assumption::Turns => "jumps, conditional branches and returns stand only last in a block",
            Assumption::Marks => "no last instruction is skip-marked",
            Assumption::Sets => "no setcc or cmovcc has a near branch",
            Assumption::Cases => "no edge is Case",
            Assumption::Starts => "no atlas entry has a block's start as its address",
            Assumption::Names => "no atlas or mnemonic 0 name begins with loc_",
            Assumption::Words => "no mnemonic 0 name is do, if, goto or return",
            Assumption::Jumps => "a direct jump to a block of the record has its one Uncond edge to that block",
            Assumption::Falls => "a block that does not end in a jmp or return has the next block as its one Fall or False edge",
            Assumption::Branches => "every conditional branch goes to a block of the record",
            Assumption::Labels => "every goto to a block names a label that stands in the listing",
        }
    }
}

impl fmt::Display for Assumption {
    fn fmt(&self, f: &mut fmt::Formatter<'_>) -> fmt::Result {
        write!(f, "breaks {}: {}", self.number(), self.text())
    }
}

/// Whether the listing of a whole record may be followed: none if all that is assumed holds, else the first assumption that does not. A refusal is
/// none of 12 to 14.
///
/// Panics on an answer that the library does not give: then another one is linked.
pub fn check(record: &[u8]) -> Result<Option<Assumption>, Refusal> {
    match ffi::check(record)? {
        0 => Ok(None),
        number => match Assumption::ALL.get(number - 1) {
            Some(assumption) => Ok(Some(*assumption)),
            None => panic!("the library answers assumption {number}"),
        },
    }
}
