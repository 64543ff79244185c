//! A call for each number, made from document 01's example.

mod common;

use cakirotu::{list, list_into, size, Blocks, Listed, Refusal};
use common::{example, example_with_atlas, Lent, BODIES, BODY, EDGE_KINDS, EDGE_TARGETS, MARKS, STARTS};

/// All three calls refuse with this number, and no list is changed.
fn refused(record: &[u8], blocks: Blocks, no: Refusal) {
    assert_eq!(size(record, blocks), Err(no));
    assert_eq!(list(record, blocks), Err(no));
    let lent = Lent::new([500; 7]);
    let mut left = lent.clone();
    assert_eq!(list_into(record, blocks, &mut left.lists()), Err(no));
    assert_eq!(left, lent);
}

/// A copy of a record with one byte changed.
fn with(mut record: Vec<u8>, at: usize, byte: u8) -> Vec<u8> {
    record[at] = byte;
    record
}

fn whole(record: &[u8], no: Refusal) {
    refused(record, cakirotu::blocks(record), no);
}

#[test]
fn questions_1_to_4() {
    (0..24).for_each(|n| whole(&example()[..n], Refusal::Header));
    whole(&with(example(), 0, 48), Refusal::Settings);
    whole(&with(example(), 2, 2), Refusal::Settings);
    whole(&with(example(), 16, 1), Refusal::Settings);
    whole(&with(example(), 20, 2), Refusal::Settings);
    whole(&with(example(), 4, 201), Refusal::Limits);
    whole(&with(example(), 21, 56), Refusal::Limits);
    let longer = [example(), vec![0]].concat();
    whole(&longer, Refusal::Length);
    whole(&longer[..longer.len() - 2], Refusal::Length);
    whole(&with(example(), 4, 2), Refusal::Length);
}

#[test]
fn questions_5_to_8() {
    whole(&with(example(), MARKS, 1), Refusal::Counts);
    whole(&with(example(), MARKS + 3, 2), Refusal::Counts);
    whole(&with(example(), STARTS + 8, 0), Refusal::Starts);
    whole(&with(example(), EDGE_KINDS, 5), Refusal::Edges);
    whole(&with(example(), BODIES, 46), Refusal::Instructions);
    whole(&with(example(), BODIES + 7, 3), Refusal::Instructions);
    whole(&with(example(), 14, 1), Refusal::Instructions);
}

/// Of the example's edges the first is the branch's True edge, the second its False one, the third the Fall edge of a plain block.
#[test]
fn question_15() {
    whole(&with(example(), EDGE_KINDS, 2), Refusal::Branches);
    whole(&with(example(), EDGE_KINDS + 1, 1), Refusal::Branches);
    whole(&with(example(), EDGE_KINDS + 2, 1), Refusal::Branches);
    (0..8).for_each(|k| whole(&with(example(), EDGE_TARGETS + k, 0xaa), Refusal::Branches));
    // The branch is the second instruction: no condition, no near branch, another target.
    let branch = BODIES + BODY;
    whole(&with(example(), branch + 1, 0), Refusal::Branches);
    whole(&with(example(), branch + 18, 5), Refusal::Branches);
    (20..28).for_each(|k| whole(&with(example(), branch + k, 0xaa), Refusal::Branches));
    // A branch all the same if its operand is not counted.
    assert!(list(&with(example(), branch + 2, 0), 0..3).is_ok());
    whole(&with(with(example(), branch + 2, 0), EDGE_KINDS, 2), Refusal::Branches);
    // Empty blocks: the first gives its instructions to the second.
    whole(&with(with(example(), MARKS, 0), MARKS + 4, 3), Refusal::Branches);
    // After 8 and before 9.
    whole(&with(with(example(), EDGE_KINDS, 2), 14, 1), Refusal::Instructions);
    let record = example_with_atlas();
    let last = record.len() - 1;
    whole(&with(with(record, EDGE_KINDS, 2), last, 0x7f), Refusal::Branches);
}

#[test]
fn questions_9_to_11() {
    let record = example_with_atlas();
    let atlas = example().len();
    assert!(list(&record, 0..3).is_ok());
    whole(&with(record.clone(), atlas + 8, 4), Refusal::Atlas);
    whole(&with(record.clone(), record.len() - 1, 0x7f), Refusal::Atlas);
    whole(&with(record.clone(), atlas + 10 + 9, 0x01), Refusal::Spans);
    let range = |from, to| Blocks { from, to };
    for blocks in
        [range(0, 4), range(2, 1), range(4, 4), range(usize::MAX, 0), range(0, usize::MAX), range(usize::MAX, usize::MAX)]
    {
        refused(&example(), blocks, Refusal::Range);
    }
}

#[test]
fn numbers_and_words() {
    assert_eq!(Refusal::ALL.map(Refusal::number), [1, 2, 3, 4, 5, 6, 7, 8, 15, 9, 10, 11, 17, 18, 19, 16, 12, 13, 14]);
    for refusal in Refusal::ALL {
        assert_eq!(Refusal::from_number(refusal.number()), Some(refusal));
        assert_eq!(refusal.to_string(), format!("no {}: {}", refusal.number(), refusal.question()));
    }
    assert_eq!([0, 20, 255].map(Refusal::from_number), [None; 3]);
}

/// Every length, and several changes of every byte: the three calls agree, and a listing's lists hold together. Number 11 never comes:
/// another number of blocks is another length.
#[test]
fn damaged_records() {
    let record = example_with_atlas();
    let mut numbers = std::collections::BTreeSet::new();
    let lengths = (0..record.len() + 40).map(|n| {
        let mut cut = record.clone();
        cut.resize(n, 0);
        cut
    });
    let changes = (0..record.len()).flat_map(|at| {
        let byte = record[at];
        let bytes = [0, 1, 2, 46, 128, 255, byte ^ 1, byte ^ 0x80, byte.wrapping_add(3)];
        bytes.map(|new| with(record.clone(), at, new))
    });
    for damaged in lengths.chain(changes) {
        numbers.insert(agreed(&damaged));
    }
    assert_eq!(numbers.into_iter().collect::<Vec<u8>>(), (0..=10).chain([15]).collect::<Vec<u8>>());
}

/// The number that all calls answer for blocks 0 to 3, or 0.
fn agreed(record: &[u8]) -> u8 {
    let listing = list(record, 0..3);
    let answer = listing.map(|l| Listed { sizes: l.sizes(), looks: l.looks().unwrap() });
    assert_eq!(size(record, (0, 3)), answer);
    let lent = Lent::new([4096; 7]);
    let mut left = lent.clone();
    assert_eq!(list_into(record, (0, 3), &mut left.lists()), answer);
    match answer {
        Ok(Listed { sizes, .. }) => {
            assert_eq!(left.lists().view(sizes).map(|view| view.lines().len()), Some(sizes.lines));
            0
        }
        Err(no) => {
            assert_eq!(left, lent);
            no.number()
        }
    }
}
