//! Wrong listings and wrong checks in the port's place, which the comparison must notice.

use super::*;
use crate::listing::{self, Listing};
use crate::lists::Answer;
use crate::port::second::second;

fn differ(port: Port) -> usize {
    compared(&port, 5, 1000, Tally::keeping("routes", None)).unwrap().0.differ
}

fn noticed(what: &str, port: Port) {
    let count = differ(port);
    println!("{what}: {count} differ");
    assert!(count > 0, "{what} is not noticed");
}

/// A port that lists so.
macro_rules! lists {
    ($list:expr) => {
        Port {
            size: |bytes, from, to| answer_of(&$list(&Record::parse(bytes), from, to)),
            list: |bytes, from, to, lent| {
                let listing = $list(&Record::parse(bytes), from, to);
                (answer_of(&listing), lent.filled(&listing))
            },
            ..second()
        }
    };
}

fn answer_of(listing: &Listing) -> Answer {
    Answer { no: 0, sizes: listing.sizes(), looks: 0 }
}

fn right(record: &Record, from: usize, to: usize) -> Listing {
    listing::list_record(record, from, to).unwrap()
}

/// Without the lines that #101 adds.
fn unchanged(record: &Record, from: usize, to: usize) -> Listing {
    listing::unchanged(record, from, to).unwrap()
}

/// With one byte of a text another.
fn respelled(record: &Record, from: usize, to: usize, word: &[u8], with: &[u8]) -> Listing {
    let mut listing = right(record, from, to);
    if let Some(at) = listing.text.windows(word.len()).position(|w| w == word) {
        listing.text[at..at + word.len()].copy_from_slice(with);
    }
    listing
}

#[test]
fn the_second_port_agrees_with_itself() {
    assert_eq!(differ(second()), 0);
    assert_eq!(differ(lists!(right)), 0);
}

#[test]
fn wrong_listings_are_noticed() {
    noticed("no jumps in loops", lists!(unchanged));
    noticed("an if that opens nothing", lists!(|r, from, to| respelled(r, from, to, b") {", b") ;")));
    noticed("a return for a goto", lists!(|r, from, to| respelled(r, from, to, b"return", b"retorn")));
    noticed("a label by another name", lists!(|r, from, to| respelled(r, from, to, b"loc_", b"lok_")));
}

#[test]
fn wrong_checks_are_noticed() {
    fn yes(bytes: &[u8], broken: &mut [u64]) -> u8 {
        let no = assumed::check(bytes, broken);
        broken.iter_mut().take(1).for_each(|b| *b = 0);
        no
    }
    fn one_more(bytes: &[u8], broken: &mut [u64]) -> u8 {
        let no = assumed::check(bytes, broken);
        broken.iter_mut().take(1).filter(|b| **b == 5).for_each(|b| *b = 6);
        no
    }
    fn behind(bytes: &[u8], broken: &mut [u64]) -> u8 {
        broken.iter_mut().for_each(|b| *b = 0);
        assumed::check(bytes, broken)
    }
    fn kept(bytes: &[u8], broken: &mut [u64]) -> u8 {
        let no = assumed::check(bytes, &mut [0]);
        if no == 0 {
            assumed::check(bytes, broken);
        }
        no
    }
    noticed("every record follows", Port { check: yes, ..second() });
    noticed("6 for 5", Port { check: one_more, ..second() });
    noticed("entries behind the first", Port { check: behind, ..second() });
    noticed("no store with a number", Port { check: kept, ..second() });
}
