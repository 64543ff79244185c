//! Strings back from their literals.

use cakirotu::{read_literal, read_literal_into, Kind, Literal, Refusal, Token, LITERAL_BYTES};

/// A command that a driver sends, and its literal.
const COMMAND: &[u8] = b"PORT\\1\r\0";
const COMMAND_LITERAL: &str = r#""PORT\\1\r\0""#;

fn token(text: &[u8]) -> Token<'_> {
    Token { kind: Kind::Address, text }
}

/// The literal of a string: the ported source escapes so.
fn literal(string: &[u8], wide: bool) -> Vec<u8> {
    let shown: String = string.iter().take(80).map(|byte| char::from(*byte)).collect();
    let mark = if string.len() > 80 { "…" } else { "" };
    format!("{}\"{}{mark}\"", if wide { "L" } else { "" }, shown.escape_debug()).into_bytes()
}

/// Reading into a list of this length with each byte 0xee: what it answers, and what it leaves.
fn read(token: Token<'_>, room: usize) -> (Result<Literal<Vec<u8>>, Refusal>, Vec<u8>) {
    let mut out = vec![0xee; room];
    let answer = read_literal_into(token, &mut out);
    let answer = answer.map(|Literal { bytes, wide, cut }| Literal { bytes: bytes.to_vec(), wide, cut });
    (answer, out)
}

/// The string comes back, in lists that fit and in longer ones; there must be room for it.
fn comes_back(string: &[u8], wide: bool) {
    let text = literal(string, wide);
    let kept = &string[..string.len().min(LITERAL_BYTES)];
    let want = Literal { bytes: kept.to_vec(), wide, cut: string.len() > LITERAL_BYTES };
    assert_eq!(read_literal(token(&text)).as_ref(), Ok(&want));
    for more in [0, 1, 5] {
        let (answer, out) = read(token(&text), kept.len() + more);
        assert_eq!(answer.as_ref(), Ok(&want));
        assert_eq!(out, [kept, &vec![0xee; more]].concat());
    }
    for room in [0, kept.len().saturating_sub(1)].into_iter().filter(|room| *room < kept.len()) {
        assert_eq!(read(token(&text), room), (Err(Refusal::TextRoom), vec![0xee; room]));
    }
}

/// No literal, whatever room there is, and nothing is changed.
fn refused(token: Token<'_>) {
    assert_eq!(read_literal(token), Err(Refusal::Literal), "{}", token.text.escape_ascii());
    for room in [0, 1, 200] {
        assert_eq!(read(token, room), (Err(Refusal::Literal), vec![0xee; room]));
    }
}

#[test]
fn a_command() {
    assert_eq!(literal(COMMAND, false), COMMAND_LITERAL.as_bytes());
    let plain = Literal { bytes: COMMAND.to_vec(), wide: false, cut: false };
    assert_eq!(read_literal(token(COMMAND_LITERAL.as_bytes())).as_ref(), Ok(&plain));
    let wide = format!("L{COMMAND_LITERAL}");
    assert_eq!(read_literal(token(wide.as_bytes())), Ok(Literal { wide: true, ..plain }));
}

/// Every byte that a string may have, alone and all together, and every length from 0 to 128.
#[test]
fn strings_come_back() {
    let all: Vec<u8> = (0..128).collect();
    for wide in [false, true] {
        all.chunks(1).for_each(|byte| comes_back(byte, wide));
        (0..=128).for_each(|length| comes_back(&all[..length], wide));
        (0..=128).for_each(|length| comes_back(&all[128 - length..], wide));
    }
}

#[test]
fn refused_texts() {
    let inside = [
        "\\u{0}", "\\u{0d}", "\\u{d}", "\\u{a}", "\\u{9}", "\\u{7F}", "\\u{1F}", "\\u{01}", "\\u{41}", "\\u{22}", "\\u{80}",
        "\\u{101}", "\\u{}", "\\u", "\\u{", "\\u{1", "\\u1", "\\a", "\\x01", "\\U{1}", "\\", "\"", "'", "\r", "\0", "\x7f", "é",
        "…",
    ];
    for inside in inside {
        refused(token(format!("\"{inside}\"").as_bytes()));
        refused(token(format!("L\"PORT{inside}1\"").as_bytes()));
    }
    for whole in [
        "", "\"", "L", "L\"", "a", "\"a", "a\"", "l\"a\"", "LL\"a\"", " \"a\"", "\"a\" ", "\"a\";", "'a'", "\"a\"b\"",
        "sub_401000",
    ] {
        refused(token(whole.as_bytes()));
    }
    for (length, mark) in [(81, ""), (79, "…"), (81, "…"), (0, "…"), (80, "……"), (80, "…a"), (80, "..."), (336, ""), (336, "…")]
    {
        refused(token(format!("\"{}{mark}\"", "a".repeat(length)).as_bytes()));
    }
    refused(token(&[b"\"", &[b'a'; 80][..], b"\xe2\x80\""].concat()));
}

/// 17 is asked before 12, of kinds too.
#[test]
fn other_kinds_are_refused() {
    for kind in Kind::ALL.into_iter().filter(|kind| *kind != Kind::Address) {
        refused(Token { kind, text: COMMAND_LITERAL.as_bytes() });
    }
}

/// Every shorter text and every change of every byte: refused, or the literal of what is read.
#[test]
fn damaged_texts() {
    let again = |text: &[u8]| match read_literal(token(text)) {
        Ok(Literal { mut bytes, wide, cut }) => {
            // A string that was cut has one character more, whatever it is.
            bytes.extend(cut.then_some(b'a'));
            assert_eq!(literal(&bytes, wide), text);
            true
        }
        Err(refusal) => {
            assert_eq!(refusal, Refusal::Literal);
            false
        }
    };
    let long = b"PORT\\1\r\x01".repeat(11);
    let mut accepted = 0;
    for text in [literal(COMMAND, false), literal(&long, true)] {
        assert!(again(&text));
        for at in 0..text.len() {
            assert!(!again(&text[..at]));
            for byte in 0..=255 {
                let mut changed = text.clone();
                changed[at] = byte;
                accepted += usize::from(again(&changed));
            }
        }
    }
    assert!((1000..20_000).contains(&accepted), "{accepted}");
}

#[test]
fn empty_lists() {
    assert_eq!(read_literal_into(token(b""), &mut []), Err(Refusal::Literal));
    assert_eq!(read_literal_into(token(b"\"\""), &mut []), Ok(Literal::default()));
    assert_eq!(read_literal_into(token(b"\"a\""), &mut []), Err(Refusal::TextRoom));
}
