//! Whether a listing may be followed, of document 01's example and of changed copies of it.

mod common;

use cakirotu::{check, Assumption, Refusal};
use common::{example, example_with_atlas, nest, BODIES, BODY, EDGE_KINDS, EDGE_TARGETS};

/// The example with some bytes changed.
fn with(changes: &[(usize, u8)]) -> Vec<u8> {
    let mut record = example();
    changes.iter().for_each(|(at, byte)| record[*at] = *byte);
    record
}

fn breaks(record: &[u8], broken: Assumption) {
    assert_eq!(check(record), Ok(Some(broken)));
}

#[test]
fn records_that_follow() {
    assert_eq!(check(&example()), Ok(None));
    assert_eq!(check(&example_with_atlas()), Ok(None));
}

/// The first instruction is the test before the branch, the second the branch, the last the return.
#[test]
fn records_that_break_one() {
    let branch = BODIES + BODY;
    let mut none = vec![0; 24];
    none[0] = 64;
    breaks(&none, Assumption::Blocks);
    breaks(&with(&[(BODIES, 24)]), Assumption::Turns);
    breaks(&with(&[(branch + 3, 1)]), Assumption::Marks);
    breaks(&with(&[(branch, 26), (branch + 68, 0), (branch + 69, 0), (branch + 70, 0)]), Assumption::Sets);
    breaks(&with(&[(EDGE_KINDS + 1, 4)]), Assumption::Cases);
    breaks(&with(&[(EDGE_KINDS + 1, 0)]), Assumption::Falls);
    breaks(&with(&[(EDGE_TARGETS + 8, 5)]), Assumption::Falls);
    breaks(&with(&[(branch + 20, 0x20), (EDGE_TARGETS, 0x20)]), Assumption::Branches);
    let at_a_start = |mut record: Vec<u8>| {
        let at = example().len() + 1;
        record[at] = 0x10;
        record
    };
    // A branch to the next block is a goto, and that block wants no label.
    breaks(&nest(), Assumption::Labels);
    breaks(&at_a_start(example_with_atlas()), Assumption::Starts);
}

/// Two names of the branch: a label's and a word of the listing's own.
#[test]
fn names() {
    let named = |name: &[u8]| {
        let mut record = example();
        record[BODIES + BODY + 68..][..24].fill(0);
        record[BODIES + BODY + 68..][..name.len()].copy_from_slice(name);
        check(&record)
    };
    assert_eq!(named(b"loc_"), Ok(Some(Assumption::Names)));
    assert_eq!(named(b"loc"), Ok(None));
    for word in [&b"do"[..], b"if", b"goto", b"return"] {
        assert_eq!(named(word), Ok(Some(Assumption::Words)));
        assert_eq!(named(&[word, b"x"].concat()), Ok(None));
        assert_eq!(named(&word[..word.len() - 1]), Ok(None));
    }
}

/// The deepest nest with as much stack as a caller is asked to give.
#[test]
fn little_stack() {
    let checking = std::thread::Builder::new().stack_size(256 << 10).spawn(|| check(&nest()));
    assert_eq!(checking.unwrap().join().unwrap(), Ok(Some(Assumption::Labels)));
}

#[test]
fn refusals_come_first() {
    assert_eq!(check(&[]), Err(Refusal::Header));
    assert_eq!(check(&example()[..100]), Err(Refusal::Length));
    assert_eq!(check(&with(&[(EDGE_KINDS, 4)])), Err(Refusal::Branches));
    assert_eq!(check(&with(&[(EDGE_KINDS + 1, 5)])), Err(Refusal::Edges));
}

#[test]
fn numbers_and_texts() {
    let numbers: Vec<u8> = Assumption::ALL.into_iter().map(Assumption::number).collect();
    assert_eq!(numbers, (1..=12).collect::<Vec<u8>>());
    assert_eq!(Assumption::Cases.to_string(), "breaks 5: no edge is Case");
}
