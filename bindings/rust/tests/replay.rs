//! The stored calls of crates/replay/stdin, made again by this crate: what they answer and leave is what was stored.
//! docs/COMPARISON.md says the format.

mod common;

use cakirotu::{Kind, Listed, Literal, Refusal, Sizes};
use common::Lent;

/// A stored call.
struct Case {
    record: Vec<u8>,
    lengths: [usize; 7],
    no: u8,
    sizes: Sizes,
    range: (usize, usize),
    sums: [u64; 7],
}

const HEAD: usize = 120;

fn cases() -> Vec<Case> {
    let file = concat!(env!("CARGO_MANIFEST_DIR"), "/../../crates/replay/stdin");
    let bytes = std::fs::read(file).expect(file);
    let (mut at, mut cases) = (4, Vec::new());
    while at < bytes.len() {
        let case = case(&bytes[at..]);
        at += HEAD + case.record.len();
        cases.push(case);
    }
    assert_eq!(cases.len(), u32_at(&bytes, 0));
    cases
}

fn case(bytes: &[u8]) -> Case {
    let [text, tokens, lines] = [36, 40, 44].map(|at| u32_at(bytes, at));
    Case {
        record: bytes[HEAD..HEAD + u32_at(bytes, 0)].to_vec(),
        lengths: [4, 8, 12, 16, 20, 24, 28].map(|at| u32_at(bytes, at)),
        no: bytes[32],
        sizes: Sizes { text, tokens, lines },
        range: (u64_at(bytes, 48) as usize, u64_at(bytes, 56) as usize),
        sums: [64, 72, 80, 88, 96, 104, 112].map(|at| u64_at(bytes, at)),
    }
}

fn u32_at(bytes: &[u8], at: usize) -> usize {
    u32::from_le_bytes(bytes[at..at + 4].try_into().unwrap()) as usize
}

fn u64_at(bytes: &[u8], at: usize) -> u64 {
    u64::from_le_bytes(bytes[at..at + 8].try_into().unwrap())
}

fn sums(l: &Lent) -> [u64; 7] {
    [
        sum(l.text.iter().map(|n| u64::from(*n))),
        sum(l.ends.iter().map(|n| u64::from(*n))),
        sum(l.kinds.iter().map(|n| u64::from(*n))),
        sum(l.addresses.iter().flat_map(|n| [n & 0xffff_ffff, n >> 32])),
        sum(l.marks.iter().map(|n| u64::from(*n))),
        sum(l.places.iter().map(|n| u64::from(*n))),
        sum(l.lines.iter().map(|n| u64::from(*n))),
    ]
}

fn sum(numbers: impl Iterator<Item = u64>) -> u64 {
    numbers.fold(1, |h, x| (1_000_003 * h + x) % 4_294_967_311)
}

#[test]
fn every_stored_call_answers_and_leaves_what_was_stored() {
    let mut seen = [0; 16];
    for (n, case) in cases().iter().enumerate() {
        let mut lent = Lent::new(case.lengths);
        let answer = cakirotu::list_into(&case.record, case.range, &mut lent.lists());
        let stored = Refusal::from_number(case.no).map_or(Ok(case.sizes), Err);
        assert_eq!(answer.map(|listed| listed.sizes), stored, "case {n}");
        assert_eq!(sums(&lent), case.sums, "case {n}");
        seen[usize::from(case.no)] += 1;
    }
    assert_eq!(seen.iter().sum::<usize>(), 300);
    assert!(seen.iter().all(|count| *count > 0), "a number is missing: {seen:?}");
}

/// Five for each block of the range and edge of the record.
fn most_looks(case: &Case) -> u64 {
    let edges = u16::from_le_bytes([case.record[8], case.record[9]]);
    5 * (case.range.1 - case.range.0) as u64 * u64::from(edges)
}

/// `size` and `list` do not ask 12 to 14, and agree with the stored call.
#[test]
fn size_and_list_agree_with_every_stored_call() {
    for (n, case) in cases().iter().enumerate() {
        let size = cakirotu::size(&case.record, case.range);
        let list = cakirotu::list(&case.record, case.range.0..case.range.1);
        let answer = list.as_ref().map(|listing| Listed { sizes: listing.sizes(), looks: listing.looks().unwrap() });
        assert_eq!(answer, size.as_ref().copied(), "case {n}");
        match case.no {
            0 => assert_eq!(size.unwrap().sizes, case.sizes, "case {n}"),
            12..=14 => assert!(size.is_ok(), "case {n}"),
            _ => assert_eq!(size.unwrap_err().number(), case.no, "case {n}"),
        }
        let Ok(listing) = list else { continue };
        assert!(listing.looks() <= Some(most_looks(case)), "case {n}");
        let mut lent = Lent::new(common::exact(listing.sizes()));
        assert_eq!(cakirotu::list_into(&case.record, case.range, &mut lent.lists()), size);
        let view = lent.lists().view(listing.sizes()).map(|view| view.text().to_vec());
        assert_eq!(view.as_deref(), Some(listing.view().text()), "case {n}");
        assert!(
            listing.view().lines().map(|line| line.place).eq(lent.places.iter().map(|place| usize::from(*place))),
            "case {n}"
        );
    }
}

/// Every stored listing is written as rows and read back: the same listing, the same rows.
#[test]
fn every_stored_listing_goes_both_ways() {
    let mut listings = 0;
    for (n, case) in cases().iter().enumerate() {
        let Ok(listing) = cakirotu::list(&case.record, case.range) else { continue };
        let rows = cakirotu::write_rows(listing.view()).unwrap();
        let back = cakirotu::read_rows(&rows).unwrap();
        assert_eq!(back, listing, "case {n}");
        assert_eq!(cakirotu::write_rows(back.view()), Ok(rows), "case {n}");
        listings += 1;
    }
    assert_eq!(listings, 240);
}

/// The strings of a record's atlas as their literals give them.
fn strings(record: &[u8]) -> Vec<Literal<Vec<u8>>> {
    let [blocks, insns, edges, entries, spans] =
        [4, 6, 8, 10, 12].map(|at| usize::from(u16::from_le_bytes([record[at], record[at + 1]])));
    let marks = &record[24 + 12 * blocks + 9 * edges + 100 * insns + 8 * entries..];
    let mut texts = &marks[2 * entries + 16 * spans..];
    let mut strings = Vec::new();
    for mark in marks[..2 * entries].chunks(2) {
        let (text, rest) = texts.split_at(mark[1].into());
        texts = rest;
        if mark[0] < 3 {
            strings.push(Literal { bytes: text[..text.len().min(80)].to_vec(), wide: mark[0] == 2, cut: text.len() > 80 });
        }
    }
    strings
}

/// The literals of every stored listing, from its rows, are strings of the record's atlas; no other token is a literal.
#[test]
fn strings_of_every_stored_listing_come_back() {
    let mut seen = [0; 4];
    for (n, case) in cases().iter().enumerate() {
        let Ok(listing) = cakirotu::list(&case.record, case.range) else { continue };
        let back = cakirotu::read_rows(&cakirotu::write_rows(listing.view()).unwrap()).unwrap();
        let strings = strings(&case.record);
        for token in back.view().lines().flat_map(|line| line.tokens()) {
            let literal = cakirotu::read_literal(token);
            match token.kind {
                Kind::Address => {
                    let literal = literal.unwrap();
                    assert!(strings.contains(&literal), "case {n}: {literal:?}");
                    seen[usize::from(literal.wide) + 2 * usize::from(literal.cut)] += 1;
                }
                _ => assert_eq!(literal, Err(Refusal::Literal), "case {n}"),
            }
        }
    }
    assert!(seen.iter().all(|count| *count > 0), "plain, wide, cut, both: {seen:?}");
}

/// Lines and tokens, put together again, are the whole text.
#[test]
fn lines_and_tokens_have_the_whole_text() {
    for case in cases() {
        let Ok(listing) = cakirotu::list(&case.record, case.range) else { continue };
        let view = listing.view();
        assert_eq!(view.lines().len(), listing.sizes().lines);
        assert_eq!(view.lines().map(|line| line.tokens().len()).sum::<usize>(), listing.sizes().tokens);
        let tokens: Vec<u8> = view.lines().flat_map(|line| line.tokens()).flat_map(|token| token.text.to_vec()).collect();
        let lines: Vec<u8> = view.lines().flat_map(|line| line.text().to_vec()).collect();
        assert_eq!(tokens, view.text());
        assert_eq!(lines, view.text());
    }
}
