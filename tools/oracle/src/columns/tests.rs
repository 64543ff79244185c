//! The second implementation of columns by the request's words, and wrong ones in the port's place, which the comparison must notice.

use std::ops::Range;

use super::*;
use crate::compare::columns::compared;
use crate::record::{example, HEADER};

/// A record of two blocks, three bodies, an edge, an atlas entry, a span and two bytes of text, each byte behind the header another one.
fn numbered() -> Vec<u8> {
    let mut record: Vec<u8> = [64u16, 0, 2, 3, 1, 1, 1, 0, 0, 0, 0, 2].iter().flat_map(|field| field.to_le_bytes()).collect();
    let end = Layout::of(&record).end;
    record.extend((HEADER..end).map(|at| (at % 251) as u8));
    record
}

/// A call with room for so many bytes, each 0xee before it, and so many entries for the size.
fn called(rearrange: Rearranger, record: &[u8], room: usize, entries: usize) -> (u8, Vec<u8>, Vec<u64>) {
    let (mut out, mut size) = (vec![0xee; room], vec![7; entries]);
    let no = rearrange(record, &mut out, &mut size);
    (no, out, size)
}

#[test]
fn columns_by_the_requests_words() {
    let record = numbered();
    let stored = by_columns(&record);
    // 24 of header, 2 blocks, 1 edge, 3 addresses; then 3 bodies; then what is behind them.
    let (at, end) = (24 + 2 * 12 + 9 + 3 * 8, 24 + 2 * 12 + 9 + 3 * 100);
    assert_eq!((&stored[..at], &stored[end..]), (&record[..at], &record[end..]));
    assert_eq!(record.len(), end + 10 + 16 + 2);
    for byte in 0..92 {
        for body in 0..3 {
            assert_eq!(stored[at + 3 * byte + body], record[at + 92 * body + byte], "byte {byte} of body {body}");
        }
    }
    assert_eq!(stored[at..at + 4], [record[at], record[at + 92], record[at + 184], record[at + 1]]);
    assert_eq!(stored[end - 1], record[end - 1]);
}

#[test]
fn every_byte_comes_back() {
    for record in [numbered(), example().to_bytes()] {
        assert_ne!(by_columns(&record), record);
        assert_eq!(by_bodies(&by_columns(&record)), record);
        assert_eq!(by_columns(&by_bodies(&record)), record);
    }
}

/// No body and one body stay where they are.
#[test]
fn few_bodies() {
    for bodies in [0u8, 1] {
        let mut record = vec![0; HEADER + 100 * usize::from(bodies)];
        record.iter_mut().enumerate().skip(HEADER).for_each(|(at, byte)| *byte = at as u8);
        (record[0], record[6]) = (32, bodies);
        assert_eq!((by_columns(&record), by_bodies(&record)), (record.clone(), record.clone()));
        assert_eq!(called(to_columns, &record, record.len(), 1), (0, record.clone(), vec![record.len() as u64]));
    }
}

#[test]
fn lists_of_a_call() {
    let record = numbered();
    let fit = record.len();
    for (rearrange, order) in [(to_columns as Rearranger, by_columns as Order), (from_columns, by_bodies)] {
        let stored = order(&record);
        assert_eq!(called(rearrange, &record, fit, 1), (0, stored.clone(), vec![fit as u64]));
        assert_eq!(called(rearrange, &record, fit + 2, 0), (0, [&stored[..], &[0xee; 2]].concat(), vec![]));
        assert_eq!(called(rearrange, &record, fit, 2).2, [fit as u64, 7]);
        assert_eq!(called(rearrange, &record, fit - 1, 2), (12, vec![0xee; fit - 1], vec![0, 7]));
        assert_eq!(called(rearrange, &record, 0, 0), (12, vec![], vec![]));
        assert_eq!(called(rearrange, &record[..fit - 1], 3, 1), (4, vec![0xee; 3], vec![0]));
    }
}

/// Questions 1 to 4 in their order, before 12; no later one.
#[test]
fn questions_of_a_call() {
    let with = |changes: &[(usize, u8)]| {
        let mut record = numbered();
        changes.iter().for_each(|(at, byte)| record[*at] = *byte);
        record
    };
    let number = |record: &[u8]| called(to_columns, record, 0, 1).0;
    assert_eq!(number(&[]), 1);
    assert_eq!(number(&numbered()[..23]), 1);
    assert_eq!(number(&with(&[(0, 65)])), 2);
    assert_eq!(number(&with(&[(0, 65), (21, 56), (4, 3)])), 2);
    assert_eq!(number(&with(&[(21, 56), (4, 3)])), 3);
    assert_eq!(number(&with(&[(4, 3)])), 4);
    assert_eq!(number(&with(&[(0, 16)])), 12);
    // Its counts, edge kinds and instructions are none, which only later questions ask about.
    assert_eq!(questions::first_no(&numbered(), 0, 2), 5);
    assert_eq!(number(&numbered()), 12);
}

#[test]
fn what_the_programs_print() {
    let record = numbered();
    assert_eq!(programs::to_columns(&record), by_columns(&record));
    assert_eq!(programs::from_columns(&by_columns(&record)), record);
    assert_eq!(programs::to_columns(b""), b"no 1\n");
    let long = |length: usize| [&record[..], &vec![0; length - record.len()]].concat();
    assert_eq!([65_536, 65_537, 70_000].map(|length| programs::from_columns(&long(length))), [b"no 4\n"; 3]);
}

/// A direction with another order, and with other questions.
macro_rules! order {
    ($order:expr) => {
        |record, out, size| store(record, out, size, first_no, $order)
    };
}
macro_rules! asks {
    ($asked:expr, $order:expr) => {
        |record, out, size| store(record, out, size, $asked, $order)
    };
}

/// Two wrong ports: each has one direction that does so, and the other right.
macro_rules! either {
    ($asked:expr) => {
        [(asks!($asked, by_columns) as Rearranger, from_columns as Rearranger), (to_columns, asks!($asked, by_bodies))]
    };
}

fn differ(to: Rearranger, from: Rearranger) -> usize {
    compared([to, from], 5, 600).unwrap()
}

fn noticed(wrong: &[(&str, Rearranger, Rearranger)]) {
    for (what, to, from) in wrong {
        let count = differ(*to, *from);
        println!("{what}: {count} differ");
        assert!(count > 0, "{what} is not noticed");
    }
}

#[test]
fn the_second_implementation_agrees_with_itself() {
    assert_eq!(differ(to_columns, from_columns), 0);
}

/// By columns, with other bodies: where they begin, how many there are, how many bytes each has.
fn bodies(record: &[u8], other: fn(&Layout) -> [usize; 3]) -> Vec<u8> {
    let [at, count, width] = other(&Layout::of(record));
    let (before, rest) = record.split_at(at);
    let (rows, behind) = rest.split_at(count * width);
    let column = |k: usize| rows.iter().skip(k).step_by(width).copied();
    [before, &(0..width).flat_map(column).collect::<Vec<u8>>(), behind].concat()
}

/// In this order, with some bytes lost.
fn lost(record: &[u8], order: Order, which: fn(&Layout) -> Range<usize>) -> Vec<u8> {
    let mut stored = order(record);
    stored[which(&Layout::of(record))].fill(0);
    stored
}

#[test]
fn wrong_columns_are_noticed() {
    noticed(&[
        ("nothing moved", order!(|record| record.to_vec()), from_columns),
        ("rows for columns", order!(by_bodies), from_columns),
        ("byte 91 lost", order!(|record| lost(record, by_columns, |l| l.bodies + 91 * l.i..l.atlas)), from_columns),
        ("byte 0 lost", order!(|record| lost(record, by_columns, |l| l.bodies..l.bodies + l.i)), from_columns),
        ("the header lost", order!(|record| lost(record, by_columns, |_| 0..HEADER)), from_columns),
        ("what is behind the bodies lost", order!(|record| lost(record, by_columns, |l| l.atlas..l.end)), from_columns),
        ("the last byte lost", order!(|record| lost(record, by_columns, |l| l.end - 1..l.end)), from_columns),
        ("bodies of 91 bytes", order!(|record| bodies(record, |l| [l.bodies, l.i, 91])), from_columns),
        ("columns of two bytes", order!(|record| bodies(record, |l| [l.bodies, 2 * l.i, 46])), from_columns),
        ("the header moved", order!(|record| bodies(record, |l| [0, l.i, 92])), from_columns),
        ("the addresses moved", order!(|record| bodies(record, |l| [l.addresses, l.i, 92])), from_columns),
        ("addresses and bodies moved", order!(|record| bodies(record, |l| [l.addresses, l.i, 100])), from_columns),
        (
            "the first body left in place",
            order!(|record| bodies(record, |l| [l.body(l.i.min(1)), l.i.max(1) - 1, 92])),
            from_columns,
        ),
        ("the last body left in place", order!(|record| bodies(record, |l| [l.bodies, l.i.max(1) - 1, 92])), from_columns),
        ("a count of 8 bits", order!(|record| bodies(record, |l| [l.bodies, l.i % 256, 92])), from_columns),
    ]);
}

#[test]
fn wrong_ways_back_are_noticed() {
    noticed(&[
        ("nothing moved back", to_columns, order!(|record| record.to_vec())),
        ("columns for rows", to_columns, order!(by_columns)),
        ("nothing moved either way", order!(|record| record.to_vec()), order!(|record| record.to_vec())),
        ("the directions exchanged", order!(by_bodies), order!(by_columns)),
        ("the last byte of the last body lost", to_columns, order!(|record| lost(record, by_bodies, |l| l.atlas - 1..l.atlas))),
        ("the header lost on the way back", to_columns, order!(|record| lost(record, by_bodies, |_| 0..HEADER))),
        ("the rest lost on the way back", to_columns, order!(|record| lost(record, by_bodies, |l| l.atlas..l.end))),
        ("more than 255 bodies left by columns", to_columns, order!(few_back)),
    ]);
}

fn few_back(record: &[u8]) -> Vec<u8> {
    match Layout::of(record).i {
        0..=255 => by_bodies(record),
        _ => record.to_vec(),
    }
}

fn room_first(record: &[u8], room: usize) -> u8 {
    match record.len() > room {
        true => NO_ROOM,
        false => first_no(record, room),
    }
}

fn room_before_length(record: &[u8], room: usize) -> u8 {
    match first_no(record, room) {
        4 if record.len() > room => NO_ROOM,
        no => no,
    }
}

fn length_before_limits(record: &[u8], room: usize) -> u8 {
    match first_no(record, room) {
        3 if record.len() != Layout::of(record).end => 4,
        no => no,
    }
}

fn every_question(record: &[u8], room: usize) -> u8 {
    let blocks = if record.len() < HEADER { 0 } else { Layout::of(record).b };
    match questions::first_no(record, 0, blocks) {
        0 => first_no(record, room),
        no => no,
    }
}

fn two_sizes_alone(record: &[u8], room: usize) -> u8 {
    match first_no(record, room) {
        0 | NO_ROOM if record[0] == 16 => 2,
        no => no,
    }
}

#[test]
fn wrong_questions_are_noticed() {
    for (what, ports) in [
        ("12 before 4", either!(room_before_length)),
        ("12 before 1", either!(room_first)),
        ("4 before 3", either!(length_before_limits)),
        ("later questions asked", either!(every_question)),
        ("bits 16 refused", either!(two_sizes_alone)),
        ("an exact fit refused", either!(|record, room| first_no(record, room.saturating_sub(1)))),
    ] {
        noticed(&ports.map(|(to, from)| (what, to, from)));
    }
}

/// What a call left, changed: the answer, the record, the output list and the list for the size.
type Change = fn(u8, &[u8], &mut [u8], &mut [u64]);

/// Two wrong ports likewise.
macro_rules! leaves {
    ($change:expr) => {
        [
            (|record, out, size| left(to_columns, record, out, size, $change), from_columns as Rearranger),
            (to_columns as Rearranger, |record, out, size| left(from_columns, record, out, size, $change)),
        ]
    };
}

fn left(right: Rearranger, record: &[u8], out: &mut [u8], size: &mut [u64], change: Change) -> u8 {
    let no = right(record, out, size);
    change(no, record, out, size);
    no
}

#[test]
fn wrong_lists_are_noticed() {
    let wrong: [(&str, [(Rearranger, Rearranger); 2]); 7] = [
        (
            "a size with a number",
            leaves!(|no, record, _, size| size.iter_mut().take((no != 0).into()).for_each(|n| *n = record.len() as u64)),
        ),
        (
            "the size of the list",
            leaves!(|no, _, out, size| size.iter_mut().take((no == 0).into()).for_each(|n| *n = out.len() as u64)),
        ),
        ("a second size", leaves!(|_, _, _, size| size.iter_mut().skip(1).for_each(|n| *n = 0))),
        ("a size of 14 bits", leaves!(|_, _, _, size| size.iter_mut().take(1).for_each(|n| *n %= 1 << 14))),
        (
            "a byte stored with a number",
            leaves!(|no, _, out, _| out.iter_mut().take((no != 0).into()).for_each(|byte| *byte = !*byte)),
        ),
        (
            "as many bytes as there is room for",
            leaves!(|no, record, out, _| {
                if no == NO_ROOM {
                    out.copy_from_slice(&by_columns(record)[..out.len()]);
                }
            }),
        ),
        (
            "a byte behind the record",
            leaves!(|no, record, out, _| {
                if no == 0 {
                    out.iter_mut().skip(record.len()).take(1).for_each(|byte| *byte = !*byte);
                }
            }),
        ),
    ];
    for (what, ports) in wrong {
        noticed(&ports.map(|(to, from)| (what, to, from)));
    }
}
