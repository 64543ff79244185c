//! The numbers of refusals.

use std::error::Error;
use std::fmt;

/// The first question that a call got a no to, by its number.
#[derive(Clone, Copy, Debug, PartialEq, Eq, PartialOrd, Ord, Hash)]
#[repr(u8)]
pub enum Refusal {
    Header = 1,
    Settings,
    Limits,
    Length,
    Counts,
    Starts,
    Edges,
    Instructions,
    Atlas,
    Spans,
    Range,
    TextRoom,
    TokenRoom,
    LineRoom,
    /// Asked between [`Refusal::Instructions`] and [`Refusal::Atlas`].
    Branches,
    /// Asked of rows alone, before [`Refusal::TextRoom`].
    Rows,
    /// Asked of a literal alone, before [`Refusal::TextRoom`].
    Literal,
    /// Asked of a small routine alone, before [`Refusal::TextRoom`].
    Routine,
    /// Asked of a command table alone, before [`Refusal::Rows`].
    Names,
}

impl Refusal {
    /// Every refusal, in the order in which the questions are asked: of a record all but [`Refusal::Literal`], [`Refusal::Routine`],
    /// [`Refusal::Names`] and [`Refusal::Rows`], of a literal or a small routine its own and [`Refusal::TextRoom`], of a command table [`Refusal::Names`] and those behind it, of rows
    /// [`Refusal::Rows`] and those behind it.
    pub const ALL: [Refusal; 19] = [
        Refusal::Header,
        Refusal::Settings,
        Refusal::Limits,
        Refusal::Length,
        Refusal::Counts,
        Refusal::Starts,
        Refusal::Edges,
        Refusal::Instructions,
        Refusal::Branches,
        Refusal::Atlas,
        Refusal::Spans,
        Refusal::Range,
        Refusal::Literal,
        Refusal::Routine,
        Refusal::Names,
        Refusal::Rows,
        Refusal::TextRoom,
        Refusal::TokenRoom,
        Refusal::LineRoom,
    ];

    /// 1 to 19.
    pub fn number(self) -> u8 {
        self as u8
    }

    pub fn from_number(number: u8) -> Option<Refusal> {
        Refusal::ALL.into_iter().find(|refusal| refusal.number() == number)
    }

    /// The question that got a no.
    pub fn question(self) -> &'static str {
        match self {
            Refusal::Header => "Are there at least 24 bytes?",
            Refusal::Settings => "Are bits 16, 32 or 64, the convention 0 or 1, the shift mark 0 or 1, and the shift 0 if not given?",
            Refusal::Limits => {
                "At most 200 blocks, 500 instructions, 600 edges, 200 atlas entries, 32 spans, 4,000 text bytes, indent 55?"
            }
            Refusal::Length => "Is the length what the header's sizes say?",
            Refusal::Counts => "Do the blocks' counts total the header's, and is each label mark 0 or 1?",
            Refusal::Starts => "Do all blocks start at different addresses?",
            Refusal::Edges => "Is each edge of kind 0 to 4?",
            Refusal::Instructions => "Is every field of each instruction, and the frame register, one that can be recorded?",
            Refusal::Atlas => {
                "Do atlas addresses rise, are kinds 1 to 3, do lengths total the header's, are strings ASCII, names printable and not empty?"
            }
            Refusal::Spans => "Is each span's first address at most its last?",
            Refusal::Range => "Is the range one of the record's?",
            Refusal::TextRoom => "Is the list for text or bytes long enough?",
            Refusal::TokenRoom => "Are the lists for tokens, or for a table's rows, long enough?",
            Refusal::LineRoom => "Are the lists for lines, or for a table's addresses, long enough?",
            Refusal::Branches => {
                "Has each block that ends in a conditional near branch one True edge, to the branch's target, and any other block none?"
            }
            Refusal::Rows => "Are the bytes rows, or do the lists hold lines that rows can carry?",
            Refusal::Literal => "Is the token of kind 5, with a text that a listing has for a string?",
            Refusal::Routine => "Is the number of a small routine below 276?",
            Refusal::Names => "Is neither the call's nor the register's name empty?",
        }
    }
}

impl fmt::Display for Refusal {
    fn fmt(&self, f: &mut fmt::Formatter<'_>) -> fmt::Result {
        write!(f, "no {}: {}", self.number(), self.question())
    }
}

impl Error for Refusal {}
