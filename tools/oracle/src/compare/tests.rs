//! Wrong looks in the port's place, which the comparison of listings must notice.

use super::*;
use crate::looks::wrong::{count, Wrong};
use crate::port::second::{self, second};

/// How many of some calls for listings differ. Among them is one with more looks than 16 bits hold.
fn differ(port: Port) -> usize {
    listings(&port, 5, 200, Tally::keeping("listing", None)).unwrap().0.differ
}

/// Both calls count so.
macro_rules! counts {
    ($count:expr) => {
        Port {
            size: |bytes, from, to| second::size(bytes, from, to, $count),
            list: |bytes, from, to, lent| second::list(bytes, from, to, lent, $count),
            ..second()
        }
    };
}

/// Both calls count with one thing done otherwise.
macro_rules! wrong {
    ($($what:ident)*) => { [$((stringify!($what), counts!(|r, from, to| count(r, from, to, Wrong::$what)))),*] };
}

fn noticed(what: &str, port: Port) {
    let count = differ(port);
    println!("{what}: {count} differ");
    assert!(count > 0, "{what} is not noticed");
}

#[test]
fn the_second_count_agrees_with_itself() {
    assert_eq!(differ(second()), 0);
    assert_eq!(differ(counts!(|r, from, to| count(r, from, to, Wrong::Nothing))), 0);
}

#[test]
fn other_searches_and_tests_are_noticed() {
    let wrong = wrong! {
        DecidingUncounted SearchFromFirst SearchFromRecordsLast SearchFromWholeRangesLast SearchReadsOn SearchOfConditionsAlone SearchInLoops
        EntryOfSelfLoops EntryOutOfBounds EntryReadsOn EntryReadsInside EntryFromBehind EscapeBeforeEntry EscapeReadsOn EscapeReadsAll
        OutsideOfEveryLabel OutsideUnwanted OutsideReadsOn OutsideReadsInside HeadOutsideRange HeadOnlyWhereFirst
    };
    wrong.into_iter().for_each(|(what, port)| noticed(what, port));
}

#[test]
fn wrong_numbers_are_noticed() {
    let wrong = [
        ("one look more", counts!(|r, from, to| looks::looks(r, from, to) + 1)),
        ("one look less", counts!(|r, from, to| looks::looks(r, from, to).saturating_sub(1))),
        ("16 bits alone", counts!(|r, from, to| looks::looks(r, from, to) & 0xffff)),
        ("no looks", counts!(|_, _, _| 0)),
        ("none of sizing", Port { size: |bytes, from, to| second::size(bytes, from, to, |_, _, _| 0), ..second() }),
        ("none of listing", Port { list: |bytes, from, to, lent| second::list(bytes, from, to, lent, |_, _, _| 0), ..second() }),
        ("looks of a refusal", Port { size: looks_of_a_refusal, ..second() }),
        ("looks of a list too short", Port { list: looks_without_room, ..second() }),
    ];
    wrong.into_iter().for_each(|(what, port)| noticed(what, port));
}

fn looks_of_a_refusal(bytes: &[u8], from: usize, to: usize) -> Answer {
    let right = (second().size)(bytes, from, to);
    Answer { looks: right.looks + usize::from(right.no != 0), ..right }
}

/// With 12 to 14 the looks stay that were made before room was asked for.
fn looks_without_room(bytes: &[u8], from: usize, to: usize, lent: Lists) -> (Answer, Lists) {
    let (answer, left) = (second().list)(bytes, from, to, lent);
    (Answer { looks: (second().size)(bytes, from, to).looks, ..answer }, left)
}

/// "it is at most 5 × B × E"
#[test]
fn more_looks_than_allowed() {
    let mut totals = Totals::default();
    assert_eq!([(0, 0, 0), (0, 7, 0), (30, 2, 3)].map(|(looks, b, e)| totals.add(looks, b, e)), [Ok(()), Ok(()), Ok(())]);
    assert_eq!((totals.looks, totals.products, totals.most, totals.ratio, totals.met), (30, 6, 30, 5.0, [2, 3]));
    assert!([(31, 2, 3), (1, 0, 3), (1, 2, 0)].iter().all(|(looks, b, e)| totals.add(*looks, *b, *e).is_err()));
}
