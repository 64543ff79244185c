//! The port's functions, if its library is linked: the product's as its Rust binding has them, and those of `exports.rs`.

#[cfg(test)]
pub mod second;

use crate::columns::Rearranger;
use crate::lists::{Answer, Left, Lists};
use crate::literals::Reader;
use crate::pieces::Tokens;
use crate::routines;
use crate::rows::Written;
use crate::tables::Maker;
#[cfg(feature = "abi")]
use crate::tables::{Lent, Made, Names};

pub struct Port {
    pub first_no: fn(&[u8], usize, usize) -> u8,
    pub piece_tokens: fn(&[u8], u16, u16, u8) -> Tokens,
    pub size: fn(&[u8], usize, usize) -> Answer,
    /// What the call answers, and the lists that it left.
    pub list: fn(&[u8], usize, usize, Lists) -> (Answer, Lists),
    /// Lists, their sizes, and a list for the rows.
    pub write_rows: fn(&Lists, [usize; 3], Vec<u8>) -> Written,
    pub read_rows: fn(&[u8], Lists) -> Left,
    pub read_literal: Reader,
    pub command_table: Maker,
    /// A record, and a list for the assumption that it breaks first.
    pub check: fn(&[u8], &mut [u64]) -> u8,
    pub to_columns: Rearranger,
    pub from_columns: Rearranger,
    pub routine: routines::Maker,
}

#[cfg(feature = "comparison")]
pub fn linked() -> Result<Port, String> {
    use crate::exports;
    Ok(Port {
        first_no: exports::first_no,
        piece_tokens: exports::piece,
        size,
        list,
        write_rows,
        read_rows,
        read_literal: exports::read_literal,
        command_table,
        check: exports::check,
        to_columns: exports::to_columns,
        from_columns: exports::from_columns,
        routine: exports::routine,
    })
}

#[cfg(not(feature = "comparison"))]
pub fn linked() -> Result<Port, String> {
    Err("libcomparison.a is not linked: tools/compare makes it and builds with the feature `comparison`".to_string())
}

#[cfg(feature = "abi")]
pub fn size(bytes: &[u8], from: usize, to: usize) -> Answer {
    answer(cakirotu::size(bytes, (from, to)))
}

/// One call on lent lists.
#[cfg(feature = "abi")]
pub fn list(bytes: &[u8], from: usize, to: usize, mut lists: Lists) -> (Answer, Lists) {
    let listed = cakirotu::list_into(bytes, (from, to), &mut slices(&mut lists));
    (answer(listed), lists)
}

/// With a refusal the binding has seen to it that the library stored zeros.
#[cfg(feature = "abi")]
fn answer(listed: Result<cakirotu::Listed, cakirotu::Refusal>) -> Answer {
    match listed {
        Ok(listed) => Answer { no: 0, sizes: numbers(listed.sizes), looks: listed.looks as usize },
        Err(refusal) => Answer::refusal(refusal.number()),
    }
}

#[cfg(feature = "abi")]
fn numbers(sizes: cakirotu::Sizes) -> [usize; 3] {
    [sizes.text, sizes.tokens, sizes.lines]
}

#[cfg(feature = "abi")]
pub fn read_rows(file: &[u8], mut lists: Lists) -> Left {
    let (no, sizes) = match cakirotu::read_rows_into(file, &mut slices(&mut lists)) {
        Ok(sizes) => (0, numbers(sizes)),
        Err(refusal) => (refusal.number(), [0; 3]),
    };
    Left { no, sizes, lists }
}

#[cfg(feature = "abi")]
pub fn write_rows(lists: &Lists, [text, tokens, lines]: [usize; 3], mut out: Vec<u8>) -> Written {
    let (no, size) = match cakirotu::write_rows_into(&held(lists), cakirotu::Sizes { text, tokens, lines }, &mut out) {
        Ok(size) => (0, size),
        Err(refusal) => (refusal.number(), 0),
    };
    Written { no, size, out }
}

#[cfg(feature = "abi")]
pub fn command_table(lists: &Lists, [text, tokens, lines]: [usize; 3], names: Names<'_>, lent: Lent<'_>) -> Made {
    let Names { call, register } = names;
    let Lent { bytes, rows, addresses } = lent;
    let sizes = cakirotu::Sizes { text, tokens, lines };
    let made = cakirotu::command_table_into(
        &held(lists),
        sizes,
        cakirotu::Names { call, register },
        &mut cakirotu::TableLists { bytes, rows, addresses },
    );
    made.map(|sizes| [sizes.bytes, sizes.rows]).map_err(|refusal| refusal.number())
}

/// The lists as the binding reads them.
#[cfg(feature = "abi")]
pub fn held(lists: &Lists) -> cakirotu::Held<'_> {
    cakirotu::Held {
        text: &lists.text,
        ends: &lists.ends,
        kinds: &lists.kinds,
        addresses: &lists.addresses,
        marks: &lists.marks,
        places: &lists.places,
        lines: &lists.line_ends,
    }
}

/// The lists as the binding takes them.
#[cfg(feature = "abi")]
pub fn slices(lists: &mut Lists) -> cakirotu::Lists<'_> {
    cakirotu::Lists {
        text: &mut lists.text,
        ends: &mut lists.ends,
        kinds: &mut lists.kinds,
        addresses: &mut lists.addresses,
        marks: &mut lists.marks,
        places: &mut lists.places,
        lines: &mut lists.line_ends,
    }
}
