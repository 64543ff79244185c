//! Looks of small records, counted by hand: for each place of the range the edges that the loop search, the entry, outside and escape tests read.

use super::*;
use crate::listing::{self, Origin};
use crate::record::edge::{CASE, FALL, FALSE, TRUE, UNCOND};
use crate::record::{self, kind, name, Insn, Operand};
use crate::rng::Rng;
use crate::{damage, questions};

/// Where block k starts in a record whose addresses rise.
fn start(k: usize) -> u64 {
    0x10 * (k as u64 + 1)
}

/// A block with edges to places. One with a True edge ends with a branch to that edge's target, another with nothing.
fn block(start: u64, starts: &[u64], edges: &[(usize, u8)]) -> Block {
    let mut block = Block { start, ..Block::default() };
    block.edges = edges.iter().map(|(to, kind)| Edge { to: starts[*to], kind: *kind }).collect();
    if let Some(told) = block.edges.iter().find(|e| e.kind == TRUE) {
        let mut jne = Insn { address: start, condition: 6, count: 1, name: name("jne"), ..Insn::default() };
        jne.operands[0] = Operand { kind: kind::NEAR, register: 0, number: told.to };
        block.insns.push(jne);
    }
    block
}

/// A record of such blocks, whose label is wanted where `labels` has their place. All questions accept it.
fn record_at(starts: &[u64], edges: &[&[(usize, u8)]], labels: &[usize]) -> Record {
    let mut blocks: Vec<Block> = starts.iter().zip(edges).map(|(start, edges)| block(*start, starts, edges)).collect();
    labels.iter().for_each(|k| blocks[*k].label = 1);
    let record = Record { bits: 64, blocks, ..Record::default() };
    assert_eq!(questions::first_no(&record.to_bytes(), 0, starts.len()), 0);
    record
}

fn record(edges: &[&[(usize, u8)]], labels: &[usize]) -> Record {
    let starts: Vec<u64> = (0..edges.len()).map(start).collect();
    record_at(&starts, edges, labels)
}

/// The looks of a whole record.
fn of(record: &Record) -> usize {
    looks(record, 0, record.blocks.len())
}

#[test]
fn straight_blocks() {
    assert_eq!(of(&record(&[], &[])), 0);
    assert_eq!(of(&record(&[&[]], &[0])), 0);
    assert_eq!(of(&record(&[&[(0, UNCOND), (0, FALL)]], &[])), 2);
    // The search reads 0 + 1 + 2 at place 0, 0 + 1 at place 1 and 0 at place 2.
    let three = record(&[&[(1, FALL), (2, CASE)], &[(2, FALL)], &[]], &[]);
    assert_eq!(of(&three), 4);
    // In a part of the record it starts with that part's last block.
    assert_eq!(looks(&three, 0, 2), 1 + 2 + 1);
    assert_eq!(looks(&three, 1, 2), 1);
    assert_eq!(looks(&three, 1, 1), 0);
}

/// Document 01's example.
#[test]
fn an_if() {
    let mut example = record::example();
    // Place 0: search 0 + 1 + 2, entry 2 (of blocks 0 and 2), escape 1 (of block 1). Place 1, a range of its own: search 1. Place 2: none, as its
    // wanted label depends on nothing.
    assert_eq!(looking(&example, 0, 3), Looking { looks: 7, loops: vec![], ifs: vec![0] });
    // The region's first block is first in its range: True to place 2, and False to place 1, which decides.
    example.blocks[1].label = 1;
    assert_eq!(of(&example), 7 + 2);
    // The record's first block: nothing is outside of the whole range.
    example.blocks[0].label = 1;
    assert_eq!(of(&example), 7 + 2);
    // "t ≤ the range's end": t is in bounds at the end of the range, and not above it.
    example.blocks.iter_mut().for_each(|b| b.label = 0);
    assert_eq!(looking(&example, 0, 2), Looking { looks: 3 + 2 + 1 + 1, loops: vec![], ifs: vec![0] });
    assert_eq!(looking(&example, 0, 1), Looking { looks: 2, loops: vec![], ifs: vec![] });
}

#[test]
fn an_if_entered_from_outside() {
    let entered = record(&[&[(3, TRUE), (1, FALSE)], &[(2, FALL)], &[(3, FALL)], &[(2, UNCOND), (0, CASE)]], &[]);
    // Place 0: search 2 + 1 + 1 + 2, entry 2 (of block 0) + 1 (of block 3, the first of its edges decides), no escape test.
    // Place 1: search 2 + 1 + 1. Place 2: 2 + 1. Place 3: 2.
    assert_eq!(looking(&entered, 0, 4), Looking { looks: 6 + 3 + 4 + 3 + 2, loops: vec![], ifs: vec![] });
}

#[test]
fn ifs_in_an_if() {
    let nested = record(&[&[(4, TRUE)], &[(3, TRUE)], &[(3, FALL)], &[(4, FALL)], &[]], &[1, 2]);
    // Place 0: search 0 + 1 + 1 + 1 + 1, entry 1 + 0, escape 3.
    // Place 1, first of 1..4: search 1 + 1 + 1, outside 1 + 0, entry of place 2: 1 + 1 + 1 + 0, escape 1.
    // Place 2, first of 2..3: search 1, outside 1 + 1 + 1 + 0. Place 3, in 1..4: search 1. Place 4: 0.
    assert_eq!(looking(&nested, 0, 5), Looking { looks: 4 + 1 + 3 + 3 + 1 + 3 + 1 + 1 + 3 + 1, loops: vec![], ifs: vec![0, 1] });
}

#[test]
fn a_loop() {
    let edges: [&[(usize, u8)]; 4] =
        [&[(1, FALL)], &[(2, FALL)], &[(3, FALSE), (1, TRUE), (3, CASE)], &[(1, FALL), (1, CASE), (3, CASE)]];
    // Place 0: search 3 + 3 + 1 + 1. Place 1: search 3 + 2 (up to the one that matches), entry 1 + 3. Place 2 is in the flat body. Place 3: 3.
    assert_eq!(looking(&record(&edges, &[]), 0, 4), Looking { looks: 8 + 5 + 4 + 3, loops: vec![1], ifs: vec![] });
    // The head's label: Fall from block 0, Fall and then Case from block 3, which decides.
    assert_eq!(of(&record(&edges, &[1])), 20 + 1 + 2);
    // It is asked outside the loop, also where the range is larger or the head is first in it. Other labels of the body depend on nothing.
    assert_eq!(of(&record(&edges, &[1, 2])), 20 + 1 + 2);
    assert_eq!(looks(&record(&edges, &[1, 2]), 1, 4), 5 + 4 + 3 + 3);
    assert_eq!(looks(&record(&edges, &[1, 2]), 1, 3), 2 + 4 + 3);
    // Without the block that closes it place 1 is plain and first: search 1, outside 1 + 2 (False, and True to place 1, which decides).
    assert_eq!(looks(&record(&edges, &[1, 2]), 1, 2), 1 + 1 + 2);
}

#[test]
fn a_loop_entered_elsewhere() {
    let edges: [&[(usize, u8)]; 4] = [&[(2, UNCOND), (1, CASE)], &[(2, FALL)], &[(3, FALSE), (1, TRUE)], &[]];
    // Place 0: search 0 + 2 + 1 + 2. Place 1: search 0 + 2, entry 1. Place 2: search 0 + 2. Its branch goes back: no entry test. Place 3: 0.
    assert_eq!(looking(&record(&edges, &[]), 0, 4), Looking { looks: 5 + 2 + 1 + 2, loops: vec![], ifs: vec![] });
    // Place 1 is then plain, and its label depends on the outside test only where it is first: Uncond, and Case, which decides.
    assert_eq!(of(&record(&edges, &[1])), 10);
    assert_eq!(looks(&record(&edges, &[1]), 1, 3), 2 + 1 + 2 + 2);
    // "Trying a shorter loop when the longest fails" is not done: the search ends at block 2, though block 1 would do.
    let two = record(&[&[(2, UNCOND)], &[(0, TRUE)], &[(0, TRUE)], &[(2, UNCOND)]], &[]);
    // Place 0: search 1 + 1, entry 1. Place 1: search 1 + 1 + 1. Place 2: 1 + 1. Place 3: 1.
    assert_eq!(looking(&two, 0, 4), Looking { looks: 2 + 1 + 3 + 2 + 1, loops: vec![], ifs: vec![] });
}

/// A head that branches on: after a loop that fails the entry test is asked again for the region.
#[test]
fn both_entry_tests() {
    let both = record(&[&[(2, TRUE)], &[(0, CASE)], &[(0, TRUE)], &[(2, CASE)]], &[]);
    // Place 0: search 1 + 1, entry of 0..2: 1 (Case to place 2 decides); entry of place 1: 1 + 1 + 1, escape 1 (to place 0).
    // Place 1: 1 + 1 + 1. Place 2: 1 + 1. Place 3: 1.
    assert_eq!(looking(&both, 0, 4), Looking { looks: 2 + 1 + 3 + 1 + 3 + 2 + 1, loops: vec![], ifs: vec![] });
}

/// Case (j): j is i, and no entry test is asked.
#[test]
fn a_self_loop() {
    assert_eq!(looking(&record(&[&[(0, TRUE), (1, FALSE)], &[]], &[]), 0, 2), Looking { looks: 1, loops: vec![], ifs: vec![] });
}

#[test]
fn a_wanted_label_on_the_first_block() {
    let edges: [&[(usize, u8)]; 3] = [&[(1, FALL)], &[(2, FALL)], &[(1, FALSE), (1, UNCOND)]];
    // Place 1 alone: search 1; outside 1 (Fall decides nothing) + 1 (False does).
    assert_eq!(looks(&record(&edges, &[]), 1, 2), 1);
    assert_eq!(looks(&record(&edges, &[1]), 1, 2), 1 + 2);
    // First of two: search 2 + 1; outside 1. Place 2: search 2, and its label depends on nothing.
    assert_eq!(looks(&record(&edges, &[1, 2]), 1, 3), 3 + 1 + 2);
    // Not first: search 2 + 1 + 1, 2 + 1 and 2.
    assert_eq!(of(&record(&edges, &[1])), 4 + 3 + 2);
}

#[test]
fn an_escape() {
    let escape = record(&[&[(1, FALL)], &[(4, TRUE), (2, FALSE)], &[(3, FALL)], &[(0, UNCOND), (4, CASE)], &[]], &[]);
    // Place 0: search 0 + 2 + 1 + 2 + 1. Place 1: search 0 + 2 + 1 + 2, entry 1 + 2 + 0, escape 1 + 1 (Uncond to place 0 decides).
    // Place 2: search 0 + 2 + 1. Place 3: 0 + 2. Place 4: 0.
    assert_eq!(looking(&escape, 0, 5), Looking { looks: 6 + 5 + 3 + 2 + 3 + 2, loops: vec![], ifs: vec![] });
    // "the target excepted": place 2 stands below the region, and an edge goes to it.
    let below = record_at(&[0x20, 0x30, 0x10], &[&[(2, TRUE), (1, FALSE)], &[(2, UNCOND)], &[]], &[]);
    assert_eq!(looking(&below, 0, 3), Looking { looks: 3 + 2 + 1 + 1, loops: vec![], ifs: vec![0] });
}

/// "in record order": by place, whatever the addresses.
#[test]
fn record_order() {
    let edges: [&[(usize, u8)]; 4] = [&[(2, UNCOND)], &[], &[(1, TRUE)], &[(1, UNCOND), (1, UNCOND), (2, UNCOND)]];
    for starts in [[0x10, 0x20, 0x30, 0x40], [0x90, 0x40, 0x50, 0x10]] {
        // Place 0: search 3 + 1 + 0 + 1. Place 1: search 3 + 1, entry 1 (of block 0). Place 2: search 3 + 1. Place 3: 3.
        assert_eq!(of(&record_at(&starts, &edges, &[])), 5 + 4 + 1 + 4 + 3);
    }
}

/// A matching edge of a block that cannot close a loop ends the reading of that block, not the search. #108 refuses such a record.
#[test]
fn a_true_edge_without_a_condition() {
    let mut record = record(&[&[], &[(0, TRUE)], &[(0, FALL), (0, FALL)]], &[]);
    record.blocks[2].edges[0].kind = TRUE;
    // Place 0: search 1 + 1, entry 2. Place 2: 2.
    assert_eq!(looking(&record, 0, 3), Looking { looks: 2 + 2 + 2, loops: vec![0], ifs: vec![] });
}

/// A shape of 200 blocks, by the edges of each: its looks, its edges, and its looks in hundredths of B × E. The port says the same.
fn shape(edges: fn(usize) -> Vec<(usize, u8)>) -> [usize; 3] {
    let all: Vec<Vec<(usize, u8)>> = (0..200).map(edges).collect();
    let record = record(&all.iter().map(|edges| &edges[..]).collect::<Vec<_>>(), &[]);
    let (looks, e) = (of(&record), record.layout().e);
    #[cfg(feature = "abi")]
    assert_eq!(crate::port::size(&record.to_bytes(), 0, 200).looks, looks);
    [looks, e, (looks + e) / (2 * e)]
}

/// What shapes cost; docs/BINDINGS.md has the last numbers.
#[test]
fn shapes_of_200_blocks() {
    // One block after another: the search alone.
    let chain = shape(|i| if i < 199 { vec![(i + 1, FALL)] } else { vec![] });
    assert_eq!(chain, [200 * 199 / 2, 199, 50]);
    // Twenty loops of ten blocks: at each head a search, from the end to the loop's last block, and an entry test.
    let loops = shape(|i| if i % 10 < 9 { vec![(i + 1, FALL)] } else { vec![(i - 9, TRUE), ((i + 1) % 200, FALSE)] });
    assert_eq!(loops, [(0..20).map(|n| 11 * n + 1 + 11 * 19).sum(), 220, 14]);
    // An if over every second block: at each a search, an entry and an escape test that read all but the branch's block once; one more search.
    let ifs = shape(|i| match i {
        198.. => vec![],
        _ if i % 2 == 0 => vec![(i + 2, TRUE), (i + 1, FALSE)],
        _ => vec![(i + 1, FALL)],
    });
    assert_eq!(ifs, [(1..=99).map(|n| 3 * n + 3 * 99 + 1).sum(), 297, 75]);
    // Branches over two blocks each, which cross. The first opens a region: search 394, entry 390, escape 4, and in it searches of 4 and 2. From place 3
    // on no branch does: a search, and an entry test that reads up to the branch before.
    let crossing = shape(|i| if i < 197 { vec![(i + 3, TRUE), (i + 1, FALSE)] } else { vec![] });
    assert_eq!(crossing, [394 + 390 + 4 + 4 + 2 + (3..197).map(|i| 2 * (197 - i) + 2 * i - 1).sum::<usize>(), 394, 98]);
    // Ifs in ifs, as deep as they go.
    let nest = shape(|i| if i < 199 { vec![(199, TRUE), (i + 1, FALSE)] } else { vec![] });
    assert_eq!(nest, [(0..198).map(|n| 2 * (398 - n)).sum::<usize>() + 2, 398, 149]);
}

/// "For E edges in the record and B blocks in the range it is at most 5 × B × E." Loops and regions are those of the Rust's listing.
#[test]
fn generated_records() {
    let rng = &mut Rng::new(111);
    let mut most = 0;
    for _ in 0..3000 {
        let call = damage::valid_call(rng);
        let record = Record::parse(&call.bytes);
        let found = looking(&record, call.from, call.to);
        assert!(found.looks <= 5 * (call.to - call.from) * record.layout().e);
        most = most.max(found.looks);
        let listing = listing::list_record(&record, call.from, call.to).unwrap();
        let places = |opens: fn(&Origin) -> bool| -> Vec<usize> {
            let lines = listing.origins.iter().zip(&listing.line_places);
            lines.filter(|(origin, _)| opens(origin)).map(|(_, place)| usize::from(*place)).collect()
        };
        assert_eq!(found.loops, places(|origin| matches!(origin, Origin::Do(_))));
        assert_eq!(found.ifs, places(|origin| matches!(origin, Origin::Open(_))));
    }
    assert!(most > usize::from(u16::MAX), "looks pass u16");
}
