//! Command tables.

mod common;

use cakirotu::{
    command_table, command_table_into, list, read_rows, Held, Listing, Names, Refusal, Sizes, Table, TableLists, TableSizes, View,
};
use common::example;

const NAMES: Names<'static> = Names { call: b"Send", register: b"rdx" };

const SET: &str = "0000000000001000,1,0,R,\"rdx\",P,\" = \",A,\"\"\"FA\\r\"\"\",P,\";\"\r\n";
const CALL: &str = "0000000000001008,1,0,R,\"rax\",P,\" = \",S,\"Send\",P,\"(\",R,\"rdx\",P,\");\"\r\n";

fn listing(rows: &[&str]) -> Listing {
    read_rows(rows.concat().as_bytes()).unwrap()
}

/// The rows of a table as its iterator has them.
fn rows_of(table: &Table) -> Vec<(u64, Option<Vec<u8>>)> {
    table.rows().map(|(address, bytes)| (address, bytes.map(<[u8]>::to_vec))).collect()
}

fn found(rows: &[&str]) -> Vec<(u64, Option<Vec<u8>>)> {
    rows_of(&command_table(listing(rows).view(), NAMES).unwrap())
}

fn bytes(bytes: &[u8]) -> Option<Vec<u8>> {
    Some(bytes.to_vec())
}

#[test]
fn calls_and_what_was_set_for_them() {
    let call = |value: Option<Vec<u8>>| (0x1008, value);
    assert_eq!(found(&[]), []);
    assert_eq!(found(&[SET]), []);
    assert_eq!(found(&[CALL]), [call(None)]);
    assert_eq!(found(&[SET, CALL, CALL]), [call(bytes(b"FA\r")), call(None)]);
    let cases: [(&str, Option<Vec<u8>>); 9] = [
        (",1,0,R,\"rdx\",P,\" = \",A,\"L\"\"TX;\"\"\"\r\n", bytes(b"TX;")),
        (",1,0,R,\"rdx\",X,\" = \",A,\"\"\"\"\"\"\r\n", bytes(b"")),
        (",1,0,R,\"rdx\",P,\" = \",A,\"\"\"\\u{0}\"\"\"\r\n", None),
        (",1,0,R,\"rdx\",P,\" = \",R,\"rcx\"\r\n", None),
        (",1,0,R,\"rdx\",P,\"++;\"\r\n", None),
        (",1,0,R,\"edx\",P,\" = \",N,\"0\"\r\n", bytes(b"FA\r")),
        (",1,1,R,\"rdx\",P,\" = \",N,\"0\"\r\n", bytes(b"FA\r")),
        (",1,0,R,\"rax\",P,\" = \",S,\"Send\",P,\"(\"\r\n", bytes(b"FA\r")),
        ("0000000000000001,1,0,R,\"rax\",P,\" = \",S,\"Other\",P,\"(\"\r\n", None),
    ];
    for (between, value) in cases {
        assert_eq!(found(&[SET, between, CALL]), [call(value)], "{between}");
    }
}

/// A literal of 80 characters has bytes, a cut one none; all bytes that a string may have come back.
#[test]
fn strings_of_every_length() {
    for length in 0..=81 {
        let text: String = (0..length.min(80)).map(|n| char::from(b'a' + n % 26)).collect();
        let mark = if length > 80 { "…" } else { "" };
        let set = format!(",0,0,R,\"rdx\",P,\" = \",A,\"\"\"{text}{mark}\"\"\"\r\n");
        let value = (length <= 80).then(|| text.into_bytes());
        assert_eq!(found(&[SET, &set, CALL]), [(0x1008, value)], "{length}");
    }
}

/// The lists and sizes of two calls, one with three bytes.
fn held(listing: &Listing) -> (Held<'_>, Sizes) {
    (listing.view().held(), listing.sizes())
}

/// A call with room for so many bytes, rows and addresses, each byte 0xee: what it answers and leaves.
fn made(
    held: &Held<'_>,
    sizes: Sizes,
    names: Names<'_>,
    room: [usize; 3],
) -> (Result<TableSizes, Refusal>, Vec<u8>, Vec<u64>, Vec<u64>) {
    let (mut bytes, mut rows, mut addresses) = (vec![0xee; room[0]], vec![7; room[1]], vec![7; room[2]]);
    let mut table = TableLists { bytes: &mut bytes, rows: &mut rows, addresses: &mut addresses };
    let answer = command_table_into(held, sizes, names, &mut table);
    if let Ok(sizes) = answer {
        assert_eq!(table.rows(sizes).map(|rows| rows.len()), Some(sizes.rows));
    }
    (answer, bytes, rows, addresses)
}

/// Exact fit, longer lists, each one too short.
#[test]
fn room_for_a_table() {
    let listing = listing(&[SET, CALL, CALL]);
    let (held, sizes) = held(&listing);
    let answer = Ok(TableSizes { bytes: 3, rows: 2 });
    assert_eq!(made(&held, sizes, NAMES, [3, 2, 2]), (answer, b"FA\r".to_vec(), vec![6, 7], vec![0x1008; 2]));
    assert_eq!(made(&held, sizes, NAMES, [4, 3, 4]), (answer, b"FA\r\xee".to_vec(), vec![6, 7, 7], vec![0x1008, 0x1008, 7, 7]));
    for (room, number) in [([2, 2, 2], 12), ([3, 1, 2], 13), ([3, 2, 1], 14), ([0, 0, 0], 12), ([3, 0, 0], 13)] {
        let refusal = Err(Refusal::from_number(number).unwrap());
        assert_eq!(made(&held, sizes, NAMES, room), (refusal, vec![0xee; room[0]], vec![7; room[1]], vec![7; room[2]]));
    }
}

/// 19 is asked before 16, and 16 before 12.
#[test]
fn refused_names_and_lists() {
    let listing = listing(&[SET, CALL]);
    let (held, sizes) = held(&listing);
    let broken = Sizes { lines: sizes.lines + 1, ..sizes };
    for room in [[0; 3], [100; 3]] {
        let refused = |refusal: Refusal| (Err(refusal), vec![0xee; room[0]], vec![7; room[1]], vec![7; room[2]]);
        for (call, register) in [(&b""[..], &b"rdx"[..]), (b"Send", b""), (b"", b"")] {
            for sizes in [sizes, broken] {
                assert_eq!(made(&held, sizes, Names { call, register }, room), refused(Refusal::Names));
            }
        }
        assert_eq!(made(&held, broken, NAMES, room), refused(Refusal::Rows));
    }
    assert_eq!(command_table(listing.view(), Names { call: b"", register: b"rdx" }), Err(Refusal::Names));
    let view = View::of(b"ab", &[2, 2], &[0, 0], &[0], &[0], &[0], &[2]).unwrap();
    assert_eq!(command_table(view, NAMES), Err(Refusal::Rows));
}

/// Names are compared byte by byte, whatever they are.
#[test]
fn names_of_any_bytes() {
    for byte in 0..=255 {
        let text = [byte; 2];
        let tokens = [&text[..], b" = \"FA\";", b"rax = ", &text, b"("].concat();
        let view =
            View::of(&tokens, &[2, 5, 9, 10, 13, 16, 18, 19], &[1, 6, 5, 6, 1, 6, 4, 6], &[0, 9], &[0, 256], &[0, 0], &[4, 8])
                .unwrap();
        let table = |call, register| rows_of(&command_table(view, Names { call, register }).unwrap());
        assert_eq!(table(&text, &text), [(9, bytes(b"FA"))]);
        assert_eq!(table(&text, &text[..1]), [(9, None)]);
        assert_eq!(table(&text[..1], &text), []);
        assert_eq!(table(&[byte; 3], &text), []);
    }
}

/// A table of document 01's example, of an empty listing and of empty lists has no rows.
#[test]
fn empty_tables() {
    let nothing = |table: Table| assert_eq!((table.sizes(), table.rows().len()), (TableSizes::default(), 0));
    nothing(command_table(list(&example(), 0..3).unwrap().view(), NAMES).unwrap());
    nothing(command_table(list(&example(), 1..1).unwrap().view(), NAMES).unwrap());
    let answer = command_table_into(&Held::default(), Sizes::default(), NAMES, &mut TableLists::default());
    assert_eq!(answer, Ok(TableSizes::default()));
}

/// Sizes of another call, or lists that were changed, give no rows; those of the call itself give the table's.
#[test]
fn rows_need_lists_that_hold_together() {
    let listing = listing(&[SET, CALL, CALL]);
    let mut lists = (vec![0; 3], vec![0; 2], vec![0; 2]);
    let mut table = TableLists { bytes: &mut lists.0, rows: &mut lists.1, addresses: &mut lists.2 };
    let sizes = command_table_into(&listing.view().held(), listing.sizes(), NAMES, &mut table).unwrap();
    let whole = command_table(listing.view(), NAMES).unwrap();
    assert!(table.rows(sizes).unwrap().eq(&whole));
    for wrong in [TableSizes { bytes: 2, rows: 2 }, TableSizes { bytes: 3, rows: 0 }, TableSizes { bytes: 4, rows: 2 }] {
        assert!(table.rows(wrong).is_none());
    }
    for rows in [[6, 5], [5, 6], [8, 6], [4, 7], [u64::MAX, 6]] {
        table.rows.copy_from_slice(&rows);
        assert!(table.rows(sizes).is_none(), "{rows:?}");
    }
}
