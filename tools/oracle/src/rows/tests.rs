//! The second implementation of rows by the requests' words, and wrong ones in the port's place, which the comparison must notice.

use super::*;
use crate::compare::rows::compared;
use crate::listing;
use crate::lists::fitting;
use crate::port::second::second;
use crate::port::Port;
use crate::record::example;
use crate::rng::Rng;

/// Document 01's example, with the places of #107.
const EXAMPLE: &str = concat!(
    "0000000000001002,1,0,K,\"if\",P,\" (\",R,\"eax\",P,\" == \",N,\"0\",P,\") {\"\r\n",
    "0000000000001004,2,1,R,\"eax\",P,\" = \",N,\"5\",P,\";\"\r\n",
    ",1,0,P,\"}\"\r\n",
    "0000000000001010,0,2,S,\"loc_1010\",P,\":\"\r\n",
    "0000000000001010,1,2,K,\"return\",P,\";\"\r\n",
);

/// The lists of the Rust's listing.
fn listed(bytes: &[u8], from: usize, to: usize) -> Lists {
    let ours = listing::list(bytes, from, to).unwrap();
    Lists::lent(fitting(ours.sizes())).filled(&ours)
}

fn sizes(lists: &Lists) -> [usize; 3] {
    [lists.text.len(), lists.ends.len(), lists.line_ends.len()]
}

/// A row of one token.
fn one(kind: u8, text: &[u8]) -> Row {
    Row { tokens: vec![Token { kind, text: text.to_vec() }], ..Row::default() }
}

fn refused(file: &[u8]) {
    assert_eq!(rows(file), None, "{}", String::from_utf8_lossy(file));
}

#[test]
fn the_example_both_ways() {
    let lists = listed(&example().to_bytes(), 0, 3);
    let room = EXAMPLE.len();
    let written = write(&lists, sizes(&lists), vec![0; room]);
    assert_eq!((written.no, written.size, String::from_utf8(written.out).unwrap()), (0, room, EXAMPLE.to_string()));
    let left = read(EXAMPLE.as_bytes(), Lists::lent(lists.lengths()));
    assert_eq!((left.no, left.sizes, left.lists), (0, sizes(&lists), lists));
}

/// The programs on the example, and on input that is no record and no rows.
#[test]
fn what_the_programs_print() {
    assert_eq!(programs::to_csv(&example().to_bytes()).unwrap(), EXAMPLE.as_bytes());
    assert_eq!(programs::to_csv(b"").unwrap(), b"no 1\n");
    assert_eq!(programs::from_csv(EXAMPLE.as_bytes()), listing::program(&example().to_bytes()).unwrap());
    assert_eq!(programs::from_csv(b""), b"lines=0\n");
    assert_eq!(programs::from_csv(b"\n"), b"no 16\n");
    let row = |bytes: usize| file(&[one(0, &vec![b'a'; bytes - 12 + 1])]);
    assert_eq!([262_144, 262_145].map(|n| row(n).len()), [262_144, 262_145]);
    assert!(programs::from_csv(&row(262_144)).starts_with(b"lines=1\n"));
    assert_eq!(programs::from_csv(&row(262_145)), b"no 16\n");
    assert_eq!(programs::fields(&[one(0, b"a\"")]), "\n30\n30\n58\n6122\nend\n");
}

#[test]
fn fields_by_the_requests_words() {
    assert_eq!(file(&[]), b"");
    let text = |bytes: &[u8]| file(&[one(0, bytes)]);
    assert_eq!(text(b"a"), b",0,0,X,\"a\"\r\n");
    assert_eq!(text(b"\\"), b",0,0,X,\"\\\"\r\n");
    assert_eq!(text(b"\""), b",0,0,X,\"\"\"\"\r\n");
    assert_eq!(text(b"\"a\""), b",0,0,X,\"\"\"a\"\"\"\r\n");
    assert_eq!(text(b",\r\n\0\xff"), b",0,0,X,\",\r\n\0\xff\"\r\n");
    let letters: Vec<u8> = (0..8).map(|kind| file(&[one(kind, b"a")])[5]).collect();
    assert_eq!(letters, b"XRNKSAPF");
    let row = Row { address: Some(0xab), indent: 254, place: 65_535, ..one(7, b"x") };
    assert_eq!(file(&[row]), b"00000000000000AB,254,65535,F,\"x\"\r\n");
}

/// What the writer produces is read back, and no other spelling of it.
#[test]
fn borders_of_reading() {
    for head in [",0,0", "0000000000000000,0,0", "FFFFFFFFFFFFFFFF,254,65535", ",10,100", ",9,99"] {
        let file = format!("{head},X,\"a\"\r\n");
        assert_eq!(rows(file.as_bytes()).map(|rows| super::file(&rows)), Some(file.into_bytes()));
    }
    for head in [
        "",
        ",0",
        ",,0",
        ",0,",
        ",00,0",
        ",0,00",
        ",01,0",
        ",0,01",
        ",255,0",
        ",256,0",
        ",0,65536",
        ",0,99999",
        ",+1,0",
        ",-1,0",
        ", 1,0",
        ",1 ,0",
        ",4294967296,0",
        ",0,4294967296",
        ",18446744073709551616,0",
        "0,0,0",
        "000000000000000,0,0",
        "00000000000000000,0,0",
        "000000000000000a,0,0",
        "000000000000000G,0,0",
        "0x00000000000000,0,0",
        "----------------,0,0",
        "\"\",0,0",
        ",\"0\",0",
        ",0,\"0\"",
        ",0,0,0",
        ",0,0,",
        "\u{feff},0,0",
    ] {
        refused(format!("{head},X,\"a\"\r\n").as_bytes());
    }
    for tokens in [
        "", ",", ",X", ",X,", ",X,a", ",X,\"\"", ",\"X\",\"a\"", ",x,\"a\"", ",Y,\"a\"", ",XX,\"a\"", ",,\"a\"", ",X,\"a\",",
        ",X,\"a\",X", ",X,\"a\" ", ",X, \"a\"", ",X,\"a\"b", ",X,\"a\"b\"", ",X,a\"b\"", ",X,\"a", ",X,a\"", ",X,\"\"a\"\"",
        ",X;\"a\"", ",X,\"a\";X,\"a\"",
    ] {
        refused(format!(",0,0{tokens}\r\n").as_bytes());
    }
    for end in ["", "\r", "\n", "\n\r", "\r\r\n", "\r\n\r\n", "\r\n\n", "\r\n ", "\r\n,", "\r\n\0", "\r\n\x1a"] {
        refused(format!(",0,0,X,\"a\"{end}").as_bytes());
    }
}

/// Lists that fit, longer ones, and one too short; with a number all stay as they were.
#[test]
fn reading_asks_for_room_last() {
    let file = EXAMPLE.as_bytes();
    let lists = listed(&example().to_bytes(), 0, 3);
    let longer = read(file, Lists::longer(sizes(&lists)));
    assert_eq!((longer.no, longer.lists.lengths()), (0, Lists::longer(sizes(&lists)).lengths()));
    for which in 0..7 {
        let (lent, no) = Lists::one_less(sizes(&lists), which);
        let left = read(file, lent.clone());
        assert_eq!((left.no, left.sizes, left.lists), (no, [0; 3], lent));
    }
    let none = read(file, Lists::lent([0; 7]));
    let not_rows = read(&file[1..], Lists::lent([0; 7]));
    assert_eq!([none.no, not_rows.no], [12, 16]);
}

/// The lists of the example with a change, for writing.
fn write_changed(room: usize, change: impl Fn(&mut Lists, &mut [usize; 3])) -> u8 {
    let mut lists = listed(&example().to_bytes(), 0, 3);
    let mut all = sizes(&lists);
    change(&mut lists, &mut all);
    let written = write(&lists, all, vec![0xee; room]);
    if written.no != 0 {
        assert_eq!((written.size, written.out), (0, vec![0xee; room]));
    }
    written.no
}

#[test]
fn writing_asks_for_lines_first() {
    let room = EXAMPLE.len();
    let no = |change: fn(&mut Lists, &mut [usize; 3])| [room, room - 1].map(|room| write_changed(room, change));
    assert_eq!(no(|_, _| {}), [0, 12]);
    assert_eq!(no(|l, _| l.text.push(b'"')), [0, 12]);
    assert_eq!(no(|l, _| l.marks.push(0xffff)), [0, 12]);
    assert_eq!(no(|_, s| *s = [0; 3]), [0, 0]);
    assert_eq!(no(|l, _| l.places[2] = 65_535), [12, 12]);
    let wrong: [fn(&mut Lists, &mut [usize; 3]); 20] = [
        |l, _| l.text.truncate(3),
        |_, s| s[0] += 1,
        |_, s| s[0] -= 1,
        |_, s| s[1] += 1,
        |_, s| s[1] -= 1,
        |_, s| s[2] += 1,
        |_, s| s[2] -= 1,
        |_, s| s[2] = usize::MAX,
        |l, _| l.ends[0] = 0,
        |l, _| l.ends[3] = l.ends[2],
        |l, _| l.ends[14] += 1,
        |l, _| l.line_ends[0] = 0,
        |l, _| l.line_ends[2] = l.line_ends[1],
        |l, _| l.line_ends[4] -= 1,
        |l, _| l.kinds[0] = 8,
        |l, _| l.marks[0] = 512,
        |l, _| l.marks[0] = 255,
        |l, _| l.marks[0] = 511,
        |l, _| l.marks[0] = 0,
        |l, _| l.addresses[2] = 1,
    ];
    for change in wrong {
        assert_eq!(no(change), [16, 16]);
    }
}

/// How many of the calls for some listings differ.
fn differ(port: Port) -> usize {
    compared(&port, 1, 300, None).unwrap().differ()
}

#[test]
fn the_second_implementation_agrees_with_itself() {
    assert_eq!(differ(second()), 0);
}

/// Generated rows are written and read back.
#[test]
fn any_rows_come_back() {
    let mut rng = Rng::new(1);
    for _ in 0..2000 {
        let made = any::rows(&mut rng);
        assert_eq!(rows(&file(&made)).as_ref(), Some(&made));
        let (lists, sizes) = lists_of(&made);
        assert_eq!(held(&lists, sizes), Some(made));
    }
}

/// Of each kind of damage some files are refused, but for the last four kinds, after which all are rows.
#[test]
fn damage_does_harm() {
    let mut rng = Rng::new(1);
    let example = rows(EXAMPLE.as_bytes()).unwrap();
    for kind in 0..damage::KINDS {
        let refused = (0..100).filter(|_| rows(&damage::damaged(&mut rng, &example, kind)).is_none()).count();
        let harmless = ["other number", "row twice", "row left out", "rows exchanged"].contains(&damage::name(kind));
        assert_eq!(refused == 0, harmless, "{}: {refused}", damage::name(kind));
    }
}

/// What stands outside of quotes, changed; a doubled quote ends a part and begins the next one.
fn outside(file: &[u8], change: fn(&str) -> String) -> Vec<u8> {
    let parts = file.split(|b| *b == b'"').enumerate();
    let changed = |part: &[u8]| std::str::from_utf8(part).map_or(part.to_vec(), |text| change(text).into_bytes());
    parts.map(|(n, part)| if n % 2 == 0 { changed(part) } else { part.to_vec() }).collect::<Vec<_>>().join(&b'"')
}

/// A reader that takes more than rows: it mends the file first.
macro_rules! mends {
    ($change:expr) => {
        Port { read_rows: |file, lent| read(&outside(file, $change), lent), ..second() }
    };
}

/// A writer that puts something else in the place of a byte of text.
macro_rules! escapes {
    ($byte:expr, $with:expr) => {
        Port {
            write_rows: |lists, sizes, out| {
                let Some(mut rows) = held(lists, sizes) else { return write(lists, sizes, out) };
                for token in rows.iter_mut().flat_map(|row| &mut row.tokens) {
                    token.text = token.text.iter().flat_map(|b| if *b == $byte { $with.to_vec() } else { vec![*b] }).collect();
                }
                let (lists, sizes) = lists_of(&rows);
                write(&lists, sizes, out)
            },
            ..second()
        }
    };
}

/// The file with each text between quotes as it is.
fn undoubled(file: &[u8]) -> Vec<u8> {
    let halved = |row: &Row| {
        let mut fields = write::fields(row);
        for (n, token) in row.tokens.iter().enumerate() {
            fields[4 + 2 * n] = [b"\"", &token.text[..], b"\""].concat();
        }
        [fields.join(&b','), b"\r\n".to_vec()].concat()
    };
    rows(file).expect("a file that was written").iter().flat_map(halved).collect()
}

fn ends_in_lf(file: &[u8]) -> Vec<u8> {
    outside(file, |part| part.replace("\r\n", "\n"))
}

#[test]
fn wrong_writers_are_noticed() {
    let wrong = [
        ("a backslash doubled", escapes!(b'\\', b"\\\\")),
        ("a line feed as \\n", escapes!(b'\n', b"\\n")),
        ("a zero byte left out", escapes!(0, b"")),
        ("a quote not doubled", Port { write_rows: |l, s, out| rewritten(l, s, out, undoubled), ..second() }),
        ("rows end in LF", Port { write_rows: |l, s, out| rewritten(l, s, out, ends_in_lf), ..second() }),
        (
            "12 before 16",
            Port { write_rows: |l, s, out| if out.is_empty() { no(12, out) } else { write(l, s, out) }, ..second() },
        ),
        ("an exact fit refused", Port { write_rows: exact_refused, ..second() }),
        ("a byte behind the file", Port { write_rows: one_more, ..second() }),
    ];
    wrong.into_iter().for_each(|(what, port)| noticed(what, port));
}

fn noticed(what: &str, port: Port) {
    let count = differ(port);
    println!("{what}: {count} differ");
    assert!(count > 0, "{what} is not noticed");
}

fn no(no: u8, out: Vec<u8>) -> Written {
    Written { no, size: 0, out }
}

/// Another file in the place of the right one.
fn rewritten(lists: &Lists, sizes: [usize; 3], out: Vec<u8>, change: fn(&[u8]) -> Vec<u8>) -> Written {
    let right = write(lists, sizes, out.clone());
    if right.no != 0 || right.size == 0 {
        return right;
    }
    let mut file = change(&right.out[..right.size]);
    let size = file.len();
    file.extend(&out[size.min(out.len())..]);
    Written { no: 0, size, out: file }
}

fn exact_refused(lists: &Lists, sizes: [usize; 3], out: Vec<u8>) -> Written {
    let right = write(lists, sizes, out.clone());
    match right.no == 0 && right.size == out.len() {
        true => no(12, out),
        false => right,
    }
}

fn one_more(lists: &Lists, sizes: [usize; 3], out: Vec<u8>) -> Written {
    let mut right = write(lists, sizes, out);
    if right.no == 0 && right.size < right.out.len() {
        right.out[right.size] = 0;
    }
    right
}

#[test]
fn wrong_readers_are_noticed() {
    let wrong = [
        ("leading zeros", mends!(|part| part.replace(",0,", ",\u{1},").replace(",0", ",").replace('\u{1}', "0"))),
        ("lower-case digits", mends!(|part| part.to_uppercase())),
        ("LF alone", mends!(|part| part.replace("\r\n", "\n").replace('\n', "\r\n"))),
        ("blanks", mends!(|part| part.replace(' ', ""))),
        ("semicolons", mends!(|part| part.replace(';', ","))),
        ("empty rows", mends!(|part| part.replace("\r\n\r\n", "\r\n"))),
        ("no last CR LF", Port { read_rows: |file, lent| read(&ended(file), lent), ..second() }),
        ("a heading row", Port { read_rows: |file, lent| read(file.strip_prefix(HEADING).unwrap_or(file), lent), ..second() }),
        ("no place", mends!(placed)),
        ("indent 255", Port { read_rows: |file, lent| read(&replaced(file, b",255,", b",254,"), lent), ..second() }),
        (
            "12 before 16",
            Port { read_rows: |file, lent| if lent.text.is_empty() { left(12, lent) } else { read(file, lent) }, ..second() },
        ),
        ("14 before 13", Port { read_rows: lines_first, ..second() }),
        ("lists changed with a number", Port { read_rows: changed_anyway, ..second() }),
        ("an entry behind the sizes", Port { read_rows: one_entry_more, ..second() }),
        ("places not stored", Port { read_rows: |file, lent| without_places(file, lent), ..second() }),
    ];
    wrong.into_iter().for_each(|(what, port)| noticed(what, port));
}

const HEADING: &[u8] = b"address,indent,place,kind,text\r\n";

fn left(no: u8, lists: Lists) -> Left {
    Left { no, sizes: [0; 3], lists }
}

fn ended(file: &[u8]) -> Vec<u8> {
    let end: &[u8] = if file.is_empty() || file.ends_with(b"\r\n") { b"" } else { b"\r\n" };
    [file.strip_suffix(b"\r").filter(|_| !end.is_empty()).unwrap_or(file), end].concat()
}

/// Place 0 for a row that has an address, an indent and a letter before its first text, where a row with its place has one field more.
fn placed(part: &str) -> String {
    match part.split(',').collect::<Vec<_>>()[..] {
        [address, indent, letter, end] => [address, indent, "0", letter, end].join(","),
        _ => part.to_string(),
    }
}

fn replaced(file: &[u8], from: &[u8], to: &[u8]) -> Vec<u8> {
    match file.windows(from.len()).position(|part| part == from) {
        Some(at) => [&file[..at], to, &file[at + from.len()..]].concat(),
        None => file.to_vec(),
    }
}

fn lines_first(file: &[u8], lent: Lists) -> Left {
    let right = read(file, lent.clone());
    let lines = rows(file).map_or(0, |rows| rows.len());
    match right.no {
        13 if lent.marks.len() < lines => left(14, lent),
        _ => right,
    }
}

fn changed_anyway(file: &[u8], lent: Lists) -> Left {
    let mut right = read(file, lent);
    if right.no != 0 && !right.lists.text.is_empty() {
        right.lists.text[0] = 0;
    }
    right
}

fn one_entry_more(file: &[u8], lent: Lists) -> Left {
    let mut right = read(file, lent);
    if let Some(entry) = right.lists.line_ends.get_mut(right.sizes[2]).filter(|_| right.no == 0) {
        *entry = 0;
    }
    right
}

fn without_places(file: &[u8], lent: Lists) -> Left {
    let places = lent.places.clone();
    let right = read(file, lent);
    Left { lists: Lists { places, ..right.lists }, ..right }
}
