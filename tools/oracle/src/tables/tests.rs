//! The second implementation of command tables by the request's words, and wrong ones in the port's place, which the comparison must notice.

use super::programs::keyer;
use super::*;
use crate::compare::tables::compared;
use crate::rng::Rng;
use crate::rows::Token;
use crate::{gen, listing, questions};

/// Rows as they are written: a letter and a text for each token.
fn line(place: u16, address: Option<u64>, tokens: &[(u8, &str)]) -> Row {
    let token = |(letter, text): &(u8, &str)| Token {
        kind: b"XRNKSAPF".iter().position(|l| l == letter).unwrap() as u8,
        text: text.as_bytes().to_vec(),
    };
    Row { address, indent: 1, place, tokens: tokens.iter().map(token).collect() }
}

/// `rax = NAME(` at an address of block 0.
fn called(address: u64, name: &str) -> Row {
    line(0, Some(address), &[(b'R', "rax"), (b'P', " = "), (b'S', name), (b'P', "(")])
}

/// `REGISTER = LITERAL;` in block 0.
fn sets(register: &str, literal: &str) -> Row {
    line(0, Some(1), &[(b'R', register), (b'P', " = "), (b'A', literal), (b'P', ";")])
}

const NAMES: Names<'static> = Names { call: b"Send", register: b"rdx" };

/// What the program would print of these lines.
fn printed(lines: &[Row]) -> String {
    let input = [b"Send\nrdx\n", &rows::file(lines)[..]].concat();
    String::from_utf8(keyer(&input)).unwrap()
}

/// What is printed behind the address of a last line that calls `Send`.
fn found(lines: &[Row]) -> String {
    let all: Vec<Row> = lines.iter().cloned().chain([called(0x1008, "Send")]).collect();
    let text = printed(&all);
    text.lines().last().unwrap().strip_prefix("0000000000001008 ").unwrap().to_string()
}

#[test]
fn bytes_by_the_requests_words() {
    assert_eq!(found(&[sets("rdx", "\"FA\\r\"")]), "46410D");
    assert_eq!(found(&[sets("rdx", "L\"TX;\"")]), "54583B");
    assert_eq!(found(&[sets("rdx", "\"\"")]), "");
    assert_eq!(found(&[]), "-");
    let full = "a".repeat(80);
    assert_eq!(found(&[sets("rdx", &format!("\"{full}\""))]), "61".repeat(80));
    assert_eq!(found(&[sets("rdx", &format!("\"{full}…\""))]), "-");
    assert_eq!(found(&[sets("rdx", &format!("\"{full}a\""))]), "-");
    assert_eq!(found(&[sets("rdx", "\"\\u{0}\"")]), "-");
    assert_eq!(found(&[sets("rcx", "\"FA\"")]), "-");
    assert_eq!(found(&[sets("rd", "\"FA\"")]), "-");
    assert_eq!(found(&[sets("rdx", "\"FA\""), sets("rcx", "\"FB\"")]), "4641");
    assert_eq!(found(&[sets("rdx", "\"FA\""), sets("rdx", "\"FB\"")]), "4642");
}

/// The last line that begins with the register decides, whatever stands behind.
#[test]
fn other_tokens_give_none() {
    let literal = (b'A', "\"FA\"");
    let last = |tokens: &[(u8, &str)]| found(&[sets("rdx", "\"old\""), line(0, Some(1), tokens)]);
    assert_eq!(last(&[(b'R', "rdx"), (b'X', " = "), literal, (b'S', "anything")]), "4641");
    assert_eq!(last(&[(b'R', "rdx"), (b'P', " = "), literal]), "4641");
    for tokens in [
        &[(b'R', "rdx"), (b'P', " += "), literal][..],
        &[(b'R', "rdx"), (b'P', " ="), literal],
        &[(b'R', "rdx"), (b'P', " = "), (b'S', "\"FA\"")],
        &[(b'R', "rdx"), (b'P', " = "), (b'N', "5")],
        &[(b'R', "rdx"), (b'P', " = ")],
        &[(b'R', "rdx")],
    ] {
        assert_eq!(last(tokens), "-");
    }
    assert_eq!(last(&[(b'S', "rdx"), (b'P', " = "), literal]), "6F6C64");
    let without = line(0, None, &[(b'R', "rdx"), (b'P', " = "), literal]);
    assert_eq!(found(&[sets("rdx", "\"old\""), without]), "4641");
}

/// A call line ends the search, whatever it calls, and sets nothing itself.
#[test]
fn call_lines() {
    let set = || sets("rdx", "\"FA\"");
    assert_eq!(found(&[set(), called(1, "Other")]), "-");
    assert_eq!(found(&[set(), called(1, "Send")]), "-");
    let of = |address: Option<u64>, tokens: &[(u8, &str)]| found(&[set(), line(0, address, tokens)]);
    let [first, second, third, fourth] = [(b'R', "rax"), (b'P', " = "), (b'S', "Other"), (b'P', "(")];
    for tokens in [
        &[first, second, third, fourth][..],
        &[first, (b'N', " = "), third, fourth],
        &[first, second, (b'P', "*("), fourth],
        &[first, second, third, (b'P', "(rcx);"), (b'P', "(")],
        &[(b'R', "rdx"), second, (b'A', "\"FB\""), fourth],
    ] {
        assert_eq!(of(Some(0), tokens), "-");
        assert_eq!(of(None, &[&[(b'X', "x")], tokens].concat()), "4641");
    }
    for tokens in [
        &[first, second, third][..],
        &[first, (b'P', " ="), third, fourth],
        &[first, second, third, (b'S', "(")],
        &[first, second, third, (b'P', " (")],
        &[first, second, (b'P', "("), third],
        &[(b'S', "rax"), second, third, fourth],
    ] {
        assert_eq!(of(Some(5), tokens), "4641");
    }
    assert_eq!(of(None, &[first, second, third, fourth]), "4641");
}

/// Lines of other blocks stand between and are not looked at.
#[test]
fn blocks_by_their_places() {
    let of = |place: u16, row: Row| Row { place, ..row };
    assert_eq!(found(&[of(1, sets("rdx", "\"FA\""))]), "-");
    assert_eq!(found(&[of(256, sets("rdx", "\"FA\""))]), "-");
    assert_eq!(found(&[sets("rdx", "\"FA\""), of(1, called(9, "Send")), of(1, sets("rdx", "\"FB\""))]), "4641");
    let lines = [of(1, sets("rdx", "\"FB\"")), sets("rdx", "\"FA\""), called(8, "Send"), of(1, called(9, "Send"))];
    assert_eq!(printed(&lines), "0000000000000008 4641\n0000000000000009 4642\n");
}

/// Lists that fit, longer ones, each one too short; 19 before 16 before 12 to 14.
#[test]
fn lists_of_a_call() {
    let lines = [sets("rdx", "\"FA\""), called(8, "Send"), called(9, "Send"), sets("rdx", "\"\""), called(10, "Send")];
    let (lists, sizes) = rows::lists_of(&lines);
    let call = |sizes: [usize; 3], names: Names<'_>, room: [usize; 3]| {
        let (mut bytes, mut rows, mut addresses) = (vec![0xee; room[0]], vec![7; room[1]], vec![7; room[2]]);
        let made = make(&lists, sizes, names, Lent { bytes: &mut bytes, rows: &mut rows, addresses: &mut addresses });
        if made.is_err() {
            assert_eq!((&bytes, &rows, &addresses), (&vec![0xee; room[0]], &vec![7; room[1]], &vec![7; room[2]]));
        }
        (made, bytes, rows, addresses)
    };
    assert_eq!(call(sizes, NAMES, [2, 3, 3]), (Ok([2, 3]), b"FA".to_vec(), vec![4, 5, 4], vec![8, 9, 10]));
    assert_eq!(call(sizes, NAMES, [3, 4, 4]), (Ok([2, 3]), b"FA\xee".to_vec(), vec![4, 5, 4, 7], vec![8, 9, 10, 7]));
    for (room, no) in [([1, 3, 3], 12), ([2, 2, 3], 13), ([2, 3, 2], 14), ([1, 2, 2], 12), ([2, 2, 2], 13), ([0; 3], 12)] {
        assert_eq!(call(sizes, NAMES, room).0, Err(no));
    }
    assert_eq!(call([0; 3], NAMES, [0; 3]).0, Ok([0, 0]));
    let broken = [sizes[0], sizes[1], sizes[2] + 1];
    assert_eq!(call(broken, NAMES, [0; 3]).0, Err(16));
    for (call_name, register) in [(&b""[..], &b"rdx"[..]), (b"Send", b""), (b"", b"")] {
        for sizes in [sizes, broken] {
            assert_eq!(call(sizes, Names { call: call_name, register }, [0; 3]).0, Err(19));
        }
    }
}

/// Bytes, both LF, names, rows, in this order.
#[test]
fn what_the_program_prints() {
    let file = rows::file(&[sets("rdx", "\"FA\\r\""), called(0xabcdef, "Send"), called(u64::MAX, "Send")]);
    let with = |head: &[u8]| String::from_utf8(keyer(&[head, &file[..]].concat())).unwrap();
    assert_eq!(with(b"Send\nrdx\n"), "0000000000ABCDEF 46410D\nFFFFFFFFFFFFFFFF -\n");
    assert_eq!(with(b"Other\nrdx\n"), "");
    assert_eq!(with(b"Send\r\nrdx\r\n"), "");
    for (head, no) in [(&b"\nrdx\n"[..], 19), (b"Send\n\n", 19), (b"\n\n", 19), (b"\n\nx", 19), (b"Send\nrdx\nx", 16)] {
        assert_eq!(with(head), format!("no {no}\n"));
    }
    for (input, no) in [(&b""[..], 16), (b"\n", 16), (b"Send", 16), (b"Send\n", 16), (b"\nrdx", 16), (b"\n\n", 19)] {
        assert_eq!(keyer(input), listing::refusal(no));
    }
    assert_eq!(keyer(b"Send\nrdx\n"), b"");
    let long = |bytes: usize| [b"\nS\n", &vec![b'a'; bytes - 3][..]].concat();
    assert_eq!(keyer(&long(65_536)), listing::refusal(19));
    assert_eq!(keyer(&long(65_537)), listing::refusal(16));
    let row = |bytes: usize| [b"Send\nrdx\n,0,0,X,\"", &vec![b'a'; bytes - 20][..], b"\"\r\n"].concat();
    assert_eq!([row(65_536).len(), row(65_537).len()], [65_536, 65_537]);
    assert_eq!(keyer(&row(65_536)), b"");
    assert_eq!(keyer(&row(65_537)), listing::refusal(16));
}

/// Generated inputs of the program are tables, refusals by each number and empty outputs.
#[test]
fn inputs_of_the_program() {
    let outputs: Vec<Vec<u8>> = (0..300).map(|seed| keyer(&programs::input(seed).unwrap())).collect();
    for (what, is) in [
        ("no 16", (|out| out == b"no 16\n") as fn(&[u8]) -> bool),
        ("no 19", |out| out == b"no 19\n"),
        ("nothing", |out| out.is_empty()),
        ("a dash", |out| out.ends_with(b" -\n")),
        ("bytes", |out| out.len() > 18 && !out.ends_with(b" -\n")),
    ] {
        assert!(outputs.iter().filter(|out| is(out)).count() > 5, "{what}");
    }
}

/// The routines that the Rust lists for the comparison are records that the port would list too.
#[test]
fn senders_are_accepted() {
    let mut rng = Rng::new(1);
    for n in 0..1000 {
        let record = gen::sender(&mut rng);
        assert_eq!(questions::first_no(&record.to_bytes(), 0, record.blocks.len()), 0, "{n}");
    }
}

/// How many calls of a small comparison differ.
fn differ(port: Maker) -> usize {
    compared(port, 1, 400, None).unwrap().differ()
}

/// What a wrong implementation has otherwise. It looks back from each call, as the request says it.
#[derive(Clone, Copy)]
struct Rules {
    is_call: fn(&Row) -> bool,
    is_by: fn(&Row, &[u8]) -> bool,
    ends: fn(&Row, Names<'_>) -> bool,
    begins: fn(&Row, &[u8]) -> bool,
    same_block: fn(&Row, &Row) -> bool,
    bytes: fn(&Row) -> Option<Vec<u8>>,
    /// Which of the lines found, the latest first.
    choose: fn(&[&Row]) -> usize,
    row: fn(usize, bool) -> u64,
}

const RIGHT: Rules = Rules {
    is_call: |line| call(line).is_some(),
    is_by: |line, name| line.tokens[2].text == name,
    ends: |line, _| call(line).is_some(),
    begins: |line, register| line.tokens[0].kind == REGISTER && line.tokens[0].text == register,
    same_block: |line, other| line.place == other.place,
    bytes: bytes_set,
    choose: |_| 0,
    row: |end, none| 2 * end as u64 + u64::from(none),
};

impl Rules {
    fn entries(&self, lines: &[Row], names: Names<'_>) -> Vec<Entry> {
        let calls = |n: &usize| (self.is_call)(&lines[*n]) && (self.is_by)(&lines[*n], names.call);
        let entry = |n: usize| Entry { address: lines[n].address.unwrap_or(0), bytes: self.found(lines, n, names) };
        (0..lines.len()).filter(calls).map(entry).collect()
    }

    fn found(&self, lines: &[Row], n: usize, names: Names<'_>) -> Option<Vec<u8>> {
        let block = lines[..n].iter().rev().filter(|line| (self.same_block)(line, &lines[n]));
        let since = block.take_while(|line| !(self.ends)(line, names));
        let found: Vec<&Row> = since.filter(|line| (self.begins)(line, names.register)).collect();
        found.get((self.choose)(&found)).and_then(|line| (self.bytes)(line))
    }

    fn make(&self, lists: &Lists, sizes: [usize; 3], names: Names<'_>, lent: Lent<'_>) -> Made {
        if names.call.is_empty() || names.register.is_empty() {
            return Err(NO_NAME);
        }
        let lines = rows::held(lists, sizes).ok_or(NOT_ROWS)?;
        let mut table = columns(&self.entries(&lines, names));
        table.rows.iter_mut().for_each(|row| *row = (self.row)(*row as usize / 2, *row % 2 == 1));
        store(&table, lent)
    }
}

/// An implementation with other rules.
macro_rules! with {
    ($($field:ident: $rule:expr),+) => {
        |lists, sizes, names, lent| Rules { $($field: $rule,)+ ..RIGHT }.make(lists, sizes, names, lent)
    };
}

#[test]
fn the_right_rules_differ_nowhere() {
    assert_eq!(differ(make), 0);
    assert_eq!(differ(|lists, sizes, names, lent| RIGHT.make(lists, sizes, names, lent)), 0);
}

fn noticed(wrong: &[(&str, Maker)]) {
    for (what, maker) in wrong {
        let count = differ(*maker);
        println!("{what}: {count} differ");
        assert!(count > 0, "{what} is not noticed");
    }
}

/// Whether a line is a call line but for what `but` allows, which is one of its four tokens or the address, 4.
fn nearly(line: &Row, but: usize) -> bool {
    let tests: [fn(&Row) -> bool; 5] = [
        |line| line.tokens[0].kind == REGISTER,
        |line| line.tokens[1].text == ASSIGNS,
        |_| true,
        |line| line.tokens[3].kind == PUNCT && line.tokens[3].text.starts_with(b"("),
        |line| line.address.is_some(),
    ];
    line.tokens.len() > 3 && (0..5).all(|n| n == but || tests[n](line))
}

/// The same implementation with another notion of a call line.
macro_rules! calls {
    ($is_call:expr) => {
        with!(is_call: $is_call, ends: |line, _| $is_call(line))
    };
}

#[test]
fn wrong_call_lines_are_noticed() {
    noticed(&[
        ("a literal across a call line", with!(ends: |_, _| false)),
        (
            "only calls by the name end the search",
            with!(ends: |line, names| call(line).is_some_and(|(_, name)| name == names.call)),
        ),
        ("a call without address", calls!(|line: &Row| nearly(line, 4))),
        ("the first token of any kind", calls!(|line: &Row| nearly(line, 0))),
        ("any second token", calls!(|line: &Row| nearly(line, 1))),
        ("a second token of kind Punct alone", calls!(|line: &Row| call(line).is_some() && line.tokens[1].kind == PUNCT)),
        ("any fourth token", calls!(|line: &Row| nearly(line, 3))),
        ("a fourth token of any kind", calls!(|line: &Row| nearly(line, 3) && line.tokens[3].text.starts_with(b"("))),
        ("a fourth token that is just (", calls!(|line: &Row| call(line).is_some() && line.tokens[3].text == b"(")),
        ("a third token of kind Symbol alone", calls!(|line: &Row| call(line).is_some() && line.tokens[2].kind == 4)),
        ("a name that begins so", with!(is_by: |line, name| line.tokens[2].text.starts_with(name))),
        ("a name in any case", with!(is_by: |line, name| line.tokens[2].text.eq_ignore_ascii_case(name))),
    ]);
}

#[test]
fn wrong_searches_are_noticed() {
    noticed(&[
        ("all blocks", with!(same_block: |_, _| true)),
        ("places by their low byte", with!(same_block: |line, other| line.place % 256 == other.place % 256)),
        ("the first line", with!(choose: |found| found.len().saturating_sub(1))),
        (
            "the last line that sets bytes",
            with!(choose: |found| {
                found.iter().position(|line| bytes_set(line).is_some()).unwrap_or(found.len())
            }),
        ),
        (
            "a call line counted as one that sets",
            with!(ends: |line, _| call(line).is_some() && line.tokens[2].kind != literals::ADDRESS),
        ),
        (
            "a register that begins so",
            with!(begins: |line, register| {
                line.tokens[0].kind == REGISTER && line.tokens[0].text.starts_with(register)
            }),
        ),
        ("a register of any kind", with!(begins: |line, register| line.tokens[0].text == register)),
        ("lines with an address alone", with!(begins: |line, register| (RIGHT.begins)(line, register) && line.address.is_some())),
        (
            "lines with = alone",
            with!(begins: |line, register| {
                (RIGHT.begins)(line, register) && line.tokens.get(1).is_some_and(|second| second.text == ASSIGNS)
            }),
        ),
        ("neighbouring lines alone", |lists, sizes, names, lent| made(lists, sizes, names, lent, neighbours)),
    ]);
}

/// A table of other entries.
fn made(lists: &Lists, sizes: [usize; 3], names: Names<'_>, lent: Lent<'_>, of: fn(&[Row], Names<'_>) -> Vec<Entry>) -> Made {
    if names.call.is_empty() || names.register.is_empty() {
        return Err(NO_NAME);
    }
    let lines = rows::held(lists, sizes).ok_or(NOT_ROWS)?;
    store(&columns(&of(&lines, names)), lent)
}

/// A block that ends where another one's line stands.
fn neighbours(lines: &[Row], names: Names<'_>) -> Vec<Entry> {
    lines.chunk_by(|line, next| line.place == next.place).flat_map(|block| entries(block, names)).collect()
}

/// The literal that a line sets, whatever it is.
fn literal_set(line: &Row) -> Option<literals::Literal> {
    let [_, second, third, ..] = &line.tokens[..] else { return None };
    literals::string(&third.text).filter(|_| second.text == ASSIGNS && third.kind == literals::ADDRESS)
}

#[test]
fn wrong_bytes_are_noticed() {
    noticed(&[
        ("a cut literal yields bytes", with!(bytes: |line| literal_set(line).map(|literal| literal.bytes))),
        (
            "a wide literal yields two bytes a character",
            with!(bytes: |line| {
                let literal = literal_set(line).filter(|literal| !literal.cut)?;
                let wide = |byte: u8| if literal.wide { vec![byte, 0] } else { vec![byte] };
                Some(literal.bytes.iter().flat_map(|byte| wide(*byte)).collect())
            }),
        ),
        ("a wide literal yields none", with!(bytes: |line| bytes_set(line).filter(|_| !line.tokens[2].text.starts_with(b"L")))),
        ("a dash for an empty literal", with!(bytes: |line| bytes_set(line).filter(|bytes| !bytes.is_empty()))),
        ("an empty literal for a dash", with!(bytes: |line| bytes_set(line).or(Some(vec![])))),
        ("= of kind Punct alone", with!(bytes: |line| bytes_set(line).filter(|_| line.tokens[1].kind == PUNCT))),
        (
            "a semicolon behind the literal",
            with!(bytes: |line| {
                bytes_set(line).filter(|_| line.tokens.get(3).is_some_and(|fourth| fourth.text == b";"))
            }),
        ),
        ("nothing behind the literal", with!(bytes: |line| bytes_set(line).filter(|_| line.tokens.len() == 3))),
    ]);
}

#[test]
fn wrong_literals_are_noticed() {
    noticed(&[
        (
            "a literal of any kind",
            with!(bytes: |line| {
                let [_, second, third, ..] = &line.tokens[..] else { return None };
                literals::string(&third.text).filter(|literal| second.text == ASSIGNS && !literal.cut).map(|literal| literal.bytes)
            }),
        ),
        (
            "other spellings",
            with!(bytes: |line| {
                let mut line = line.clone();
                let third = line.tokens.get_mut(2)?;
                third.text = String::from_utf8_lossy(&third.text).replace("\\u{0}", "\\0").into_bytes();
                bytes_set(&line)
            }),
        ),
        (
            "the text between the quotes",
            with!(bytes: |line| {
                bytes_set(line).map(|_| line.tokens[2].text.split(|byte| *byte == b'"').nth(1).unwrap().to_vec())
            }),
        ),
        ("80 characters yield none", with!(bytes: |line| bytes_set(line).filter(|bytes| bytes.len() < 80))),
    ]);
}

#[test]
fn wrong_rows_are_noticed() {
    noticed(&[
        ("a row that is its byte end", with!(row: |end, none| end as u64 + u64::from(none))),
        ("a row of 17 bits", with!(row: |end, none| (2 * end as u64 + u64::from(none)) % (1 << 17))),
        ("1 for every row without bytes", with!(row: |end, none| if none { 1 } else { 2 * end as u64 })),
    ]);
}

#[test]
fn wrong_answers_are_noticed() {
    noticed(&[
        ("16 before 19", |lists, sizes, names, lent| {
            rows::held(lists, sizes).map_or(Err(NOT_ROWS), |_| make(lists, sizes, names, lent))
        }),
        ("12 before 16", |lists, sizes, names, lent| {
            if lent.bytes.is_empty() && make(lists, sizes, names, none()) == Err(NOT_ROWS) {
                return Err(NO_ROOM[0]);
            }
            make(lists, sizes, names, lent)
        }),
        ("an empty register accepted", |lists, sizes, names, lent| match names.register.is_empty() {
            true => make(lists, sizes, Names { register: b"rdx", ..names }, lent),
            false => make(lists, sizes, names, lent),
        }),
        ("13 before 12", |lists, sizes, names, lent| rows_first(lists, sizes, names, lent)),
        ("14 before 13", |lists, sizes, names, lent| match lent.addresses.is_empty() {
            true => make(lists, sizes, names, lent).map_err(|no| if no == 13 { 14 } else { no }),
            false => make(lists, sizes, names, lent),
        }),
        ("an exact fit refused", |lists, sizes, names, lent| {
            let (bytes, rows) = (lent.bytes.len(), lent.rows.len());
            make(lists, sizes, names, lent).and_then(|made| if made == [bytes, rows] && bytes > 0 { Err(12) } else { Ok(made) })
        }),
        ("a byte stored with a number", |lists, sizes, names, lent| {
            let Lent { bytes, rows, addresses } = lent;
            let made = make(lists, sizes, names, Lent { bytes: &mut *bytes, rows, addresses });
            bytes.iter_mut().take(usize::from(made.is_err())).for_each(|byte| *byte = 0);
            made
        }),
        ("a row behind the last one", |lists, sizes, names, lent| {
            let Lent { bytes, rows, addresses } = lent;
            let made = make(lists, sizes, names, Lent { bytes, rows: &mut *rows, addresses })?;
            rows.iter_mut().skip(made[1]).take(1).for_each(|row| *row = 0);
            Ok(made)
        }),
    ]);
}

fn none() -> Lent<'static> {
    Lent { bytes: &mut [], rows: &mut [], addresses: &mut [] }
}

/// Rows asked for before bytes.
fn rows_first(lists: &Lists, sizes: [usize; 3], names: Names<'_>, lent: Lent<'_>) -> Made {
    let few = lent.rows.len();
    match make(lists, sizes, names, lent) {
        Err(no) if no == NO_ROOM[0] => {
            let lines = rows::held(lists, sizes).ok_or(NOT_ROWS)?;
            Err(if entries(&lines, names).len() > few { NO_ROOM[1] } else { no })
        }
        made => made,
    }
}
