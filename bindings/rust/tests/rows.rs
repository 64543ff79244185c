//! Rows, both ways.

mod common;

use cakirotu::{list, read_rows, read_rows_into, write_rows, write_rows_into, Held, Lists, Refusal, Sizes, View};
use common::{exact, example, nest, Lent};

/// The rows of document 01's example.
const ROWS: &str = concat!(
    "0000000000001002,1,0,K,\"if\",P,\" (\",R,\"eax\",P,\" == \",N,\"0\",P,\") {\"\r\n",
    "0000000000001004,2,1,R,\"eax\",P,\" = \",N,\"5\",P,\";\"\r\n",
    ",1,0,P,\"}\"\r\n",
    "0000000000001010,0,2,S,\"loc_1010\",P,\":\"\r\n",
    "0000000000001010,1,2,K,\"return\",P,\";\"\r\n",
);

const SIZES: Sizes = Sizes { text: 40, tokens: 15, lines: 5 };

/// The example's lists, as reading fills them.
fn read_example() -> Lent {
    let mut lent = Lent::new(exact(SIZES));
    assert_eq!(read_rows_into(ROWS.as_bytes(), &mut lent.lists()), Ok(SIZES));
    lent
}

fn held(lent: &Lent) -> Held<'_> {
    Held {
        text: &lent.text,
        ends: &lent.ends,
        kinds: &lent.kinds,
        addresses: &lent.addresses,
        marks: &lent.marks,
        places: &lent.places,
        lines: &lent.lines,
    }
}

/// Writing into a list of this length with each byte 0xee: what it answers and leaves.
fn written(lent: &Lent, sizes: Sizes, room: usize) -> (Result<usize, Refusal>, Vec<u8>) {
    let mut out = vec![0xee; room];
    let answer = write_rows_into(&held(lent), sizes, &mut out);
    (answer, out)
}

#[test]
fn document_01s_example() {
    let listing = list(&example(), 0..3).unwrap();
    assert_eq!(write_rows(listing.view()), Ok(ROWS.as_bytes().to_vec()));
    assert_eq!(read_rows(ROWS.as_bytes()), Ok(listing));
}

/// Exact fit, room to spare, one byte less.
#[test]
fn room_for_writing() {
    let lent = read_example();
    for more in [0, 1, 5] {
        let (answer, out) = written(&lent, SIZES, ROWS.len() + more);
        assert_eq!(answer, Ok(ROWS.len()));
        assert_eq!(out, [ROWS.as_bytes(), &vec![0xee; more]].concat());
    }
    for room in [0, ROWS.len() - 1] {
        assert_eq!(written(&lent, SIZES, room), (Err(Refusal::TextRoom), vec![0xee; room]));
    }
}

/// Exact fit, longer lists, each one too short.
#[test]
fn room_for_reading() {
    let filled = read_example();
    let fit = exact(SIZES);
    let more = [3, 1, 2, 4, 1, 3, 2];
    let mut left = Lent::new(std::array::from_fn(|n| fit[n] + more[n]));
    assert_eq!(read_rows_into(ROWS.as_bytes(), &mut left.lists()), Ok(SIZES));
    assert_eq!(left.text.split_off(fit[0]), [0xee; 3]);
    assert_eq!(left.ends.split_off(fit[1]), [0xeeee_eeee; 1]);
    assert_eq!(left.kinds.split_off(fit[2]), [0xee; 2]);
    assert_eq!(left.addresses.split_off(fit[3]), [0xeeee_eeee_eeee_eeee; 4]);
    assert_eq!(left.marks.split_off(fit[4]), [0xeeee; 1]);
    assert_eq!(left.places.split_off(fit[5]), [0xeeee; 3]);
    assert_eq!(left.lines.split_off(fit[6]), [0xeeee_eeee; 2]);
    assert_eq!(left, filled);
    for (which, number) in [12, 13, 13, 14, 14, 14, 14].into_iter().enumerate() {
        let mut lengths = fit;
        lengths[which] -= 1;
        let lent = Lent::new(lengths);
        let mut left = lent.clone();
        assert_eq!(read_rows_into(ROWS.as_bytes(), &mut left.lists()), Err(Refusal::from_number(number).unwrap()));
        assert_eq!(left, lent);
    }
}

/// 16 is asked before 12.
#[test]
fn refused_files() {
    let files = [
        "\n",
        "no 16\n",
        &ROWS[1..],
        &ROWS[..ROWS.len() - 1],
        &ROWS[..ROWS.len() - 2],
        &ROWS.replace("\r\n", "\n"),
        &ROWS.replace(",1,0,", ",1,"),
        &ROWS.replace(",1,0,", ",01,0,"),
        &ROWS.replace(",1,0,", ",255,0,"),
        &ROWS.replace(",1,0,", ",1,65536,"),
        &ROWS.replace(",S,", ",s,"),
        &ROWS.replace("\"}\"", "}"),
        &ROWS.replace("\"}\"", "\"\""),
        &ROWS.replace(",P,\"}\"", ""),
        &ROWS.replace(",S,", ",\"S\","),
        &ROWS.replace("\"}\"", "\"\"}\""),
        &ROWS.replace("1002", "102"),
        &ROWS.replace("1002", "100a"),
        &ROWS.replace(',', ";"),
    ];
    for file in files {
        for lengths in [exact(SIZES), [0; 7], [4096; 7]] {
            let lent = Lent::new(lengths);
            let mut left = lent.clone();
            assert_eq!(read_rows_into(file.as_bytes(), &mut left.lists()), Err(Refusal::Rows), "{file}");
            assert_eq!(left, lent);
        }
        assert_eq!(read_rows(file.as_bytes()), Err(Refusal::Rows));
    }
}

#[test]
fn refused_lists() {
    let changes: [fn(&mut Lent, &mut Sizes); 20] = [
        |_, s| s.text += 1,
        |_, s| s.text -= 1,
        |_, s| s.tokens += 1,
        |_, s| s.tokens -= 1,
        |_, s| s.lines += 1,
        |_, s| s.lines -= 1,
        |_, s| *s = Sizes { text: usize::MAX, tokens: usize::MAX, lines: usize::MAX },
        |l, _| l.text.truncate(39),
        |l, _| l.kinds.truncate(14),
        |l, _| l.places.truncate(4),
        |l, _| l.ends[0] = 0,
        |l, _| l.ends[5] = l.ends[4],
        |l, _| l.ends[14] = 39,
        |l, _| l.lines[0] = 0,
        |l, _| l.lines[4] = 14,
        |l, _| l.kinds[3] = 8,
        |l, _| l.marks[0] = 512,
        |l, _| l.marks[0] = 511,
        |l, _| l.marks[0] = 1,
        |l, _| l.addresses[2] = 1,
    ];
    for (n, change) in changes.into_iter().enumerate() {
        let (mut lent, mut sizes) = (read_example(), SIZES);
        change(&mut lent, &mut sizes);
        for room in [0, 1000] {
            assert_eq!(written(&lent, sizes, room), (Err(Refusal::Rows), vec![0xee; room]), "change {n}");
        }
    }
    let view = |marks: &'static [u16], ends: &'static [u32]| View::of(b"ab", ends, &[0, 0], &[0], marks, &[0], &[2]).unwrap();
    assert_eq!(write_rows(view(&[255], &[1, 2])), Err(Refusal::Rows));
    assert_eq!(write_rows(view(&[0], &[2, 2])), Err(Refusal::Rows));
    assert_eq!(write_rows(view(&[0], &[1, 2])), Ok(b",0,0,X,\"a\",X,\"b\"\r\n".to_vec()));
}

#[test]
fn nothing_is_an_empty_file() {
    let empty = list(&example(), 1..1).unwrap();
    assert_eq!(write_rows(empty.view()), Ok(vec![]));
    assert_eq!(read_rows(b""), Ok(empty));
    assert_eq!(write_rows_into(&Held::default(), Sizes::default(), &mut []), Ok(0));
    assert_eq!(write_rows_into(&held(&read_example()), Sizes::default(), &mut []), Ok(0));
    assert_eq!(read_rows_into(b"", &mut Lists::default()), Ok(Sizes::default()));
    assert_eq!(read_rows_into(ROWS.as_bytes(), &mut Lists::default()), Err(Refusal::TextRoom));
}

/// A text of every byte, a backslash as one byte and a quote as two.
#[test]
fn any_bytes() {
    let text: Vec<u8> = (0..=255).collect();
    let view = View::of(&text, &[256], &[7], &[u64::MAX], &[256 + 254], &[u16::MAX], &[1]).unwrap();
    let rows = write_rows(view).unwrap();
    let quoted: Vec<u8> = text.iter().flat_map(|b| vec![*b; if *b == b'"' { 2 } else { 1 }]).collect();
    assert_eq!(rows, [b"FFFFFFFFFFFFFFFF,254,65535,F,\"", &quoted[..], b"\"\r\n"].concat());
    let back = read_rows(&rows).unwrap();
    assert_eq!(
        back.view().lines().map(|line| (line.address, line.indent, line.place)).collect::<Vec<_>>(),
        [(Some(u64::MAX), 254, 65_535)]
    );
    assert_eq!(back.view().text(), text);
}

/// Every length and several changes of every byte: refused with 16, or read and written again as they are.
#[test]
fn damaged_files() {
    let rows = ROWS.as_bytes();
    let again = |file: &[u8]| match read_rows(file) {
        Ok(listing) => {
            assert_eq!(write_rows(listing.view()).as_deref(), Ok(file));
            true
        }
        Err(refusal) => {
            assert_eq!(refusal, Refusal::Rows);
            false
        }
    };
    for n in 0..=rows.len() {
        assert_eq!(again(&rows[..n]), n == 0 || rows[n - 1] == b'\n', "{n}");
    }
    let mut accepted = 0;
    for at in 0..rows.len() {
        for byte in *b"\0\",\r\n09AXa \\\xff" {
            let mut changed = rows.to_vec();
            changed[at] = byte;
            accepted += usize::from(again(&changed));
        }
    }
    assert!((500..2000).contains(&accepted), "{accepted}");
}

/// The deepest nest goes both ways in a thread with little stack.
#[test]
fn little_stack_suffices() {
    let small = std::thread::Builder::new().stack_size(256 * 1024);
    let both = || {
        let listing = list(&nest(), 0..200).unwrap();
        let rows = write_rows(listing.view()).unwrap();
        (read_rows(&rows) == Ok(listing), rows.len())
    };
    let (same, bytes) = small.spawn(both).unwrap().join().unwrap();
    assert!(same && bytes > 10_000, "{bytes}");
}
