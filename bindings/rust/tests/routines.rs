//! All small routines by number.

mod common;

use std::collections::BTreeSet;

use cakirotu::{blocks, check, from_columns, list, read_rows, routine, routine_into, to_columns, write_rows};
use cakirotu::{Refusal, ROUTINES, ROUTINE_BYTES};
use common::{body, put_u64};

/// Which of a block's endings a routine has, from 0, for each of its blocks: of two blocks the first has 6 and the last 3, of three 8, 8 and 4.
fn choices(number: usize) -> Vec<usize> {
    match number {
        0..=1 => vec![number],
        2..=19 => vec![(number - 2) / 3, (number - 2) % 3],
        _ => vec![(number - 20) / 32, (number - 20) / 4 % 8, (number - 20) % 4],
    }
}

/// An instruction's 92 bytes, and the edges' targets and kinds, of a block by its place and ending: ret, then unless it is the last fall, then jmp to each
/// block, then jne to each block.
fn block(blocks: usize, place: usize, choice: usize) -> (Vec<u8>, Vec<(u64, u8)>) {
    let start = |place: usize| 0x1000 + 16 * place as u64;
    let falls = usize::from(place + 1 < blocks);
    let next = start(place + 1);
    let near = |t: usize| [(2, 0, start(t))];
    match choice {
        0 => (body(24, 0, &[], b"").to_vec(), vec![]),
        1 if falls == 1 => (body(1, 0, &[(0, 64, 0), (5, 0, 1)], b"").to_vec(), vec![(next, 3)]),
        _ => match choice - 1 - falls {
            t if t < blocks => (body(25, 0, &near(t), b"").to_vec(), vec![(start(t), 0)]),
            t => (body(0, 6, &near(t - blocks), b"jne").to_vec(), vec![(start(t - blocks), 1), (next, 2)]),
        },
    }
}

/// The record, array by array.
fn made(number: usize) -> Vec<u8> {
    let choices = choices(number);
    let n = choices.len();
    let of: Vec<_> = (0..n).map(|place| block(n, place, choices[place])).collect();
    let edges: Vec<(u64, u8)> = of.iter().flat_map(|(_, edges)| edges.clone()).collect();
    let mut record = Vec::new();
    for field in [64u16, 1, n as u16, n as u16, edges.len() as u16, 0, 0, 0] {
        record.extend(field.to_le_bytes());
    }
    record.extend([0, 0, 0, 0, 0, 1, 0, 0]);
    (0..n as u64).for_each(|place| put_u64(&mut record, &[0x1000 + 16 * place]));
    of.iter().for_each(|(_, edges)| record.extend([1, 0, edges.len() as u8, 1]));
    edges.iter().for_each(|(to, _)| put_u64(&mut record, &[*to]));
    record.extend(edges.iter().map(|(_, kind)| kind));
    (0..n as u64).for_each(|place| put_u64(&mut record, &[0x1000 + 16 * place]));
    of.iter().for_each(|(body, _)| record.extend(body));
    record
}

#[test]
fn every_record() {
    let mut seen = BTreeSet::new();
    for number in 0..ROUTINES {
        assert_eq!(routine(number).as_ref(), Ok(&made(number)), "routine {number}");
        assert!(seen.insert(routine(number).unwrap()));
    }
    let of = |blocks: u8| seen.iter().filter(|record| record[4] == blocks).count();
    assert_eq!([of(1), of(2), of(3)], [2, 18, 256]);
    assert_eq!(seen.iter().map(Vec::len).max(), Some(ROUTINE_BYTES));
}

/// Each lists, and goes into rows and by columns and back. All but those whose goto has no label may be followed.
#[test]
fn every_listing() {
    let mut follow = 0;
    for number in 0..ROUTINES {
        let record = routine(number).unwrap();
        let listing = list(&record, blocks(&record)).unwrap();
        assert_eq!(read_rows(&write_rows(listing.view()).unwrap()), Ok(listing));
        assert_eq!(from_columns(&to_columns(&record).unwrap()).as_ref(), Ok(&record));
        follow += usize::from(check(&record) == Ok(None));
    }
    assert_eq!(follow, 137);
}

/// Lists that fit, longer ones, and every shorter one.
#[test]
fn lists_that_are_lent() {
    for number in 0..ROUTINES {
        let record = made(number);
        let fit = record.len();
        for more in [0, 1, 300] {
            let mut out = vec![0xee; fit + more];
            assert_eq!(routine_into(number, &mut out), Ok(fit));
            assert_eq!(out, [&record[..], &vec![0xee; more]].concat());
        }
        for room in 0..fit {
            let mut out = vec![0xee; room];
            assert_eq!(routine_into(number, &mut out), Err(Refusal::TextRoom));
            assert!(out.iter().all(|byte| *byte == 0xee));
        }
    }
}

/// 18 comes before 12.
#[test]
fn numbers_without_a_routine() {
    let turns = [1 << 9, 1 << 16, 1 << 32, 1 << 63, usize::MAX - 275];
    let low = (0..ROUTINES).flat_map(|number| turns.map(|turn| turn + number));
    for number in (ROUTINES..1000).chain(low) {
        assert_eq!(routine(number), Err(Refusal::Routine));
        for room in [0, 1, ROUTINE_BYTES] {
            let mut out = vec![0xee; room];
            assert_eq!(routine_into(number, &mut out), Err(Refusal::Routine));
            assert!(out.iter().all(|byte| *byte == 0xee));
        }
    }
    assert_eq!(Refusal::Routine.number(), 18);
}

/// With as much stack as a caller is asked to give.
#[test]
fn little_stack() {
    let making = std::thread::Builder::new().stack_size(256 << 10).spawn(|| (0..ROUTINES).map(routine).all(|made| made.is_ok()));
    assert!(making.unwrap().join().unwrap());
}
