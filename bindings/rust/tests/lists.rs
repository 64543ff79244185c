//! What is listed, and lists of every length.

mod common;

use cakirotu::{list, list_into, size, Kind, Listed, Lists, Refusal, Sizes, View};
use common::{exact, example, nest, Lent};

/// A line's address, indent, place and text.
type Row<T> = (Option<u64>, u8, usize, T);

const LINES: [Row<&str>; 5] = [
    (Some(0x1002), 1, 0, "if (eax == 0) {"),
    (Some(0x1004), 2, 1, "eax = 5;"),
    (None, 1, 0, "}"),
    (Some(0x1010), 0, 2, "loc_1010:"),
    (Some(0x1010), 1, 2, "return;"),
];

fn lines_of(view: View<'_>) -> Vec<Row<String>> {
    let text = |bytes: &[u8]| String::from_utf8(bytes.to_vec()).unwrap();
    view.lines().map(|line| (line.address, line.indent, line.place, text(line.text()))).collect()
}

fn expected() -> Vec<Row<String>> {
    LINES.map(|(address, indent, place, text)| (address, indent, place, text.to_string())).to_vec()
}

#[test]
fn document_01s_example() {
    let record = example();
    assert_eq!(cakirotu::blocks(&record), (0..3).into());
    let listing = list(&record, cakirotu::blocks(&record)).unwrap();
    assert_eq!(lines_of(listing.view()), expected());
    let second = listing.view().lines().nth(1).unwrap();
    let tokens: Vec<(Kind, &[u8])> = second.tokens().map(|token| (token.kind, token.text)).collect();
    let want: [(Kind, &[u8]); 4] = [(Kind::Register, b"eax"), (Kind::Punct, b" = "), (Kind::Number, b"5"), (Kind::Punct, b";")];
    assert_eq!(tokens, want);
}

/// The sizes of the example.
fn sizes() -> Sizes {
    size(&example(), 0..3).unwrap().sizes
}

/// What a call for all of the example answers: bindings/c/test.c has its looks counted by hand.
fn whole() -> Listed {
    Listed { sizes: sizes(), looks: 7 }
}

#[test]
fn exact_fit_passes() {
    let mut lent = Lent::new(exact(sizes()));
    assert_eq!(list_into(&example(), 0..3, &mut lent.lists()), Ok(whole()));
    assert_eq!(lines_of(lent.lists().view(sizes()).unwrap()), expected());
}

/// The looks of a range, by each call.
fn looks_of(record: &[u8], from: usize, to: usize) -> u64 {
    let listing = list(record, from..to).unwrap();
    let mut lent = Lent::new(exact(listing.sizes()));
    let listed = list_into(record, from..to, &mut lent.lists()).unwrap();
    assert_eq!(listed, Listed { sizes: listing.sizes(), looks: listing.looks().unwrap() });
    assert_eq!(size(record, from..to), Ok(listed));
    listed.looks
}

#[test]
fn looks_of_the_example() {
    assert_eq!(size(&example(), 0..3), Ok(whole()));
    let parts = [(0, 3), (0, 2), (0, 1), (1, 3), (1, 2), (2, 3), (0, 0), (3, 3)];
    assert_eq!(parts.map(|(from, to)| looks_of(&example(), from, to)), [7, 7, 2, 1, 1, 1, 0, 0]);
}

/// A block n below 198 opens a region: its search reads the two edges of each block from n to 198, its entry test those of blocks 0 to n, its
/// escape test those of blocks n + 1 to 198. The branch of block 198 has nothing to skip, and its search reads two.
#[test]
fn looks_of_the_deepest_nest() {
    let opened: u64 = (0..198).map(|n| 2 * (199 - n) + 2 * (n + 1) + 2 * (198 - n)).sum();
    assert_eq!(looks_of(&nest(), 0, 200), opened + 2);
    assert!(opened > u64::from(u16::MAX));
}

/// Rows do not carry looks, and a listing is the same without.
#[test]
fn rows_have_no_looks() {
    let listing = list(&example(), 0..3).unwrap();
    let back = cakirotu::read_rows(&cakirotu::write_rows(listing.view()).unwrap()).unwrap();
    assert_eq!((back.looks(), listing.looks()), (None, Some(7)));
    assert_eq!(back, listing);
    assert_ne!(back, list(&example(), 0..2).unwrap());
}

#[test]
fn one_too_short_is_refused_and_changes_nothing() {
    let numbers = [12, 13, 13, 14, 14, 14, 14];
    for (which, number) in numbers.into_iter().enumerate() {
        let mut lengths = exact(sizes());
        lengths[which] -= 1;
        let lent = Lent::new(lengths);
        let mut left = lent.clone();
        assert_eq!(list_into(&example(), 0..3, &mut left.lists()), Err(Refusal::from_number(number).unwrap()));
        assert_eq!(left, lent);
    }
}

#[test]
fn entries_past_the_sizes_stay() {
    let fit = exact(sizes());
    let more = [3, 1, 2, 4, 1, 3, 2];
    let mut left = Lent::new(std::array::from_fn(|n| fit[n] + more[n]));
    assert_eq!(list_into(&example(), 0..3, &mut left.lists()), Ok(whole()));
    assert_eq!(lines_of(left.lists().view(sizes()).unwrap()), expected());
    assert_eq!(left.text.split_off(fit[0]), [0xee; 3]);
    assert_eq!(left.ends.split_off(fit[1]), [0xeeee_eeee; 1]);
    assert_eq!(left.kinds.split_off(fit[2]), [0xee; 2]);
    assert_eq!(left.addresses.split_off(fit[3]), [0xeeee_eeee_eeee_eeee; 4]);
    assert_eq!(left.marks.split_off(fit[4]), [0xeeee; 1]);
    assert_eq!(left.places.split_off(fit[5]), [0xeeee; 3]);
    assert_eq!(left.lines.split_off(fit[6]), [0xeeee_eeee; 2]);
}

#[test]
fn empty_ranges_list_nothing() {
    for at in 0..=3 {
        assert_eq!(size(&example(), at..at), Ok(Listed::default()));
        assert_eq!(list_into(&example(), at..at, &mut Lists::default()), Ok(Listed::default()));
        let listing = list(&example(), (at, at)).unwrap();
        assert_eq!(listing.view().lines().count(), 0);
        assert_eq!(listing.sizes(), Sizes::default());
    }
}

#[test]
fn empty_slices() {
    assert_eq!(size(&[], 0..0), Err(Refusal::Header));
    assert_eq!(list(&[], 0..0), Err(Refusal::Header));
    assert_eq!(list_into(&[], 0..0, &mut Lists::default()), Err(Refusal::Header));
    assert_eq!(list_into(&example(), 0..3, &mut Lists::default()), Err(Refusal::TextRoom));
}

/// Places are the record's in a part of it too.
#[test]
fn parts_of_a_record() {
    let last = list(&example(), 2..3).unwrap();
    assert_eq!(lines_of(last.view()), expected()[3..]);
    let middle = list(&example(), (1, 2)).unwrap();
    assert_eq!(lines_of(middle.view()), [(Some(0x1004), 1, 1, "eax = 5;".to_string())]);
}

#[test]
fn threads_list_at_once() {
    let workers: Vec<_> = (0..4).map(|_| std::thread::spawn(|| list(&example(), 0..3))).collect();
    for worker in workers {
        assert_eq!(lines_of(worker.join().unwrap().unwrap().view()), expected());
    }
}

/// The deepest nest, listed by a thread with little stack.
#[test]
fn little_stack_suffices() {
    let small = std::thread::Builder::new().stack_size(STACK);
    let listing = small.spawn(|| list(&nest(), 0..200)).unwrap().join().unwrap().unwrap();
    assert_eq!(listing.view().lines().map(|line| line.indent).max(), Some(253));
    // The opening lines of places 0 to 197, the if-goto of 198, their braces from the innermost on, and the return.
    let places: Vec<usize> = listing.view().lines().map(|line| line.place).collect();
    assert_eq!(places, (0..199).chain((0..198).rev()).chain([199]).collect::<Vec<_>>());
}

const STACK: usize = 256 * 1024;

/// Sizes of another call, or lists that were changed, give no view.
#[test]
fn a_view_needs_lists_that_hold_together() {
    let sizes = sizes();
    let mut lent = Lent::new(exact(sizes));
    list_into(&example(), 0..3, &mut lent.lists()).unwrap();
    let wrong = [
        Sizes { text: sizes.text - 1, ..sizes },
        Sizes { tokens: sizes.tokens - 1, ..sizes },
        Sizes { lines: sizes.lines - 1, ..sizes },
        Sizes { text: usize::MAX, tokens: usize::MAX, lines: usize::MAX },
    ];
    wrong.into_iter().for_each(|sizes| assert!(lent.lists().view(sizes).is_none()));
    assert!(Lent::new(exact(sizes)).lists().view(sizes).is_none());
    assert!(View::of(b"ab", &[2, 1, 2], &[0, 0, 0], &[0], &[0], &[0], &[3]).is_none());
    assert!(View::of(b"ab", &[2], &[8], &[0], &[0], &[0], &[1]).is_none());
    assert!(View::of(b"ab", &[2], &[0], &[0], &[512], &[0], &[1]).is_none());
    assert!(View::of(b"ab", &[2], &[0], &[], &[0], &[0], &[1]).is_none());
    assert!(View::of(b"ab", &[2], &[0], &[0], &[0], &[], &[1]).is_none());
    assert!(View::of(b"ab", &[2], &[0], &[0], &[0], &[0, 0], &[1]).is_none());
    assert!(View::of(b"ab", &[2], &[0], &[0], &[0], &[0], &[1]).is_some());
}
