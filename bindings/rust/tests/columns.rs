//! Records by columns and back.

mod common;

use cakirotu::{from_columns, from_columns_into, to_columns, to_columns_into, Refusal};
use common::{example, example_with_atlas, nest, BODIES, BODY};

/// A direction into a list that is lent.
type Into = fn(&[u8], &mut [u8]) -> Result<usize, Refusal>;

/// A call with room for so many bytes, each 0xee before it: what it answers, and what it leaves.
fn into(way: Into, record: &[u8], room: usize) -> (Result<usize, Refusal>, Vec<u8>) {
    let mut out = vec![0xee; room];
    (way(record, &mut out), out)
}

/// The example has four bodies.
#[test]
fn bodies_by_columns() {
    let record = example_with_atlas();
    let stored = to_columns(&record).unwrap();
    let end = BODIES + 4 * BODY;
    assert_eq!((&stored[..BODIES], &stored[end..]), (&record[..BODIES], &record[end..]));
    for byte in 0..BODY {
        for body in 0..4 {
            assert_eq!(stored[BODIES + 4 * byte + body], record[BODIES + BODY * body + byte]);
        }
    }
}

#[test]
fn every_byte_comes_back() {
    for record in [example(), example_with_atlas(), nest()] {
        let stored = to_columns(&record).unwrap();
        assert_ne!(stored, record);
        assert_eq!(from_columns(&stored), Ok(record.clone()));
        assert_eq!(to_columns(&from_columns(&record).unwrap()), Ok(record));
    }
}

/// Lists that fit, longer ones, shorter ones.
#[test]
fn lists_that_are_lent() {
    let record = example_with_atlas();
    let fit = record.len();
    for (way, own) in [(to_columns_into as Into, to_columns(&record)), (from_columns_into, from_columns(&record))] {
        let stored = own.unwrap();
        for more in [0, 1, 200] {
            assert_eq!(into(way, &record, fit + more), (Ok(fit), [&stored[..], &vec![0xee; more]].concat()));
        }
        for room in [0, 1, fit - 1] {
            assert_eq!(into(way, &record, room), (Err(Refusal::TextRoom), vec![0xee; room]));
        }
    }
}

/// The first four questions, and no other: the example's blocks may overlap and its edges be of any kind.
#[test]
fn refusals() {
    let with = |changes: &[(usize, u8)]| {
        let mut record = example();
        changes.iter().for_each(|(at, byte)| record[*at] = *byte);
        record
    };
    for way in [to_columns, from_columns] {
        assert_eq!(way(&[]), Err(Refusal::Header));
        assert_eq!(way(&example()[..23]), Err(Refusal::Header));
        assert_eq!(way(&with(&[(0, 65), (21, 56), (4, 2)])), Err(Refusal::Settings));
        assert_eq!(way(&with(&[(21, 56), (4, 2)])), Err(Refusal::Limits));
        assert_eq!(way(&with(&[(4, 2)])), Err(Refusal::Length));
        assert_eq!(way(&vec![64; 1 << 20]), Err(Refusal::Settings));
        let mut odd = example();
        odd[24..].fill(0xff);
        assert_eq!(way(&odd), Ok(odd));
    }
    for way in [to_columns_into, from_columns_into] {
        assert_eq!(into(way, &with(&[(4, 2)]), 3), (Err(Refusal::Length), vec![0xee; 3]));
    }
}

/// A header alone, which has no bodies, and one body, which is its own columns.
#[test]
fn few_bodies() {
    for bodies in [0u8, 1] {
        let mut record: Vec<u8> = (0..24 + 100 * bodies).collect();
        record[..24].fill(0);
        (record[0], record[6]) = (64, bodies);
        assert_eq!(to_columns(&record).as_ref(), Ok(&record));
        assert_eq!(from_columns(&record), Ok(record));
    }
}

/// With as much stack as a caller is asked to give.
#[test]
fn little_stack() {
    let storing = std::thread::Builder::new().stack_size(256 << 10).spawn(|| from_columns(&to_columns(&nest()).unwrap()));
    assert_eq!(storing.unwrap().join().unwrap(), Ok(nest()));
}
