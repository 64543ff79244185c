//! The second implementations in the port's place, for tests of the comparisons. Its listings are the Rust's.

use super::Port;
use crate::lists::{fitting, Answer, Lists, TOO_SHORT};
use crate::pieces::Tokens;
use crate::record::Record;
use crate::{columns, listing, literals, looks, questions, routes, routines, rows, tables};

pub fn second() -> Port {
    Port {
        first_no: questions::first_no,
        piece_tokens: |_, _, _, _| Tokens::default(),
        size: |bytes, from, to| size(bytes, from, to, looks::looks),
        list: |bytes, from, to, lent| list(bytes, from, to, lent, looks::looks),
        write_rows: rows::write,
        read_rows: rows::read,
        read_literal: literals::read,
        command_table: tables::make,
        check: routes::assumed::check,
        to_columns: columns::to_columns,
        from_columns: columns::from_columns,
        routine: routines::make,
    }
}

/// The answer with the looks of any count.
pub fn size(bytes: &[u8], from: usize, to: usize, count: impl Fn(&Record, usize, usize) -> usize) -> Answer {
    match questions::first_no(bytes, from, to) {
        0 => {
            let ours = listing::list(bytes, from, to).expect("the Rust does not panic");
            Answer { no: 0, sizes: ours.sizes(), looks: count(&Record::parse(bytes), from, to) }
        }
        no => Answer::refusal(no),
    }
}

/// The same, on lent lists.
pub fn list(
    bytes: &[u8],
    from: usize,
    to: usize,
    lent: Lists,
    count: impl Fn(&Record, usize, usize) -> usize,
) -> (Answer, Lists) {
    let answer = size(bytes, from, to, count);
    if answer.no != 0 {
        return (answer, lent);
    }
    match fitting(answer.sizes).iter().zip(lent.lengths()).position(|(n, room)| room < *n) {
        Some(short) => (Answer::refusal(TOO_SHORT[short]), lent),
        None => (answer, lent.filled(&listing::list(bytes, from, to).expect("the Rust does not panic"))),
    }
}
