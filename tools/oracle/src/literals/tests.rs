//! The second implementation of reading literals by the request's words, and wrong ones in the port's place, which the comparison must notice.

use super::*;
use crate::compare::literals::compared;
use crate::rng::Rng;

/// What a text gives in lists with room: the bytes, wide, cut.
fn found(text: &str) -> Option<(Vec<u8>, bool, bool)> {
    string(text.as_bytes()).map(|Literal { bytes, wide, cut }| (bytes, wide, cut))
}

fn plain(bytes: &[u8]) -> Option<(Vec<u8>, bool, bool)> {
    Some((bytes.to_vec(), false, false))
}

#[test]
fn strings_by_the_requests_words() {
    assert_eq!(found("\"\""), plain(b""));
    assert_eq!(found("\"PORT\\\\1\\r\\0\""), plain(b"PORT\\1\r\0"));
    assert_eq!(found("L\"PORT\\\\1\\r\\0\""), Some((b"PORT\\1\r\0".to_vec(), true, false)));
    assert_eq!(found("\"\\t\\n\\'\\\"\\u{1}\\u{b}\\u{1f}\\u{7f}\""), plain(b"\t\n'\"\x01\x0b\x1f\x7f"));
    assert_eq!(found("\"\\00\""), plain(b"\x000"));
    assert_eq!(found("\"L\""), plain(b"L"));
    let full = "a".repeat(80);
    assert_eq!(found(&format!("\"{full}\"")), plain(full.as_bytes()));
    assert_eq!(found(&format!("\"{full}…\"")), Some((full.clone().into_bytes(), false, true)));
    assert_eq!(found(&format!("L\"{}…\"", "\\u{1}".repeat(80))), Some((vec![1; 80], true, true)));
}

/// Each of the 128 bytes has one spelling, which no other one begins.
#[test]
fn spellings_are_told_apart() {
    for byte in 0..0x80 {
        assert_eq!(found(&format!("\"{}\"", String::from_utf8(spelling(byte)).unwrap())), plain(&[byte]));
        let begun = SPELLINGS.iter().filter(|other| other.starts_with(&spelling(byte))).count();
        assert_eq!(begun, 1, "{byte:#x}");
    }
}

#[test]
fn other_spellings_are_refused() {
    for inside in [
        "\\u{0}", "\\u{0d}", "\\u{d}", "\\u{a}", "\\u{9}", "\\u{7F}", "\\u{1F}", "\\u{41}", "\\u{22}", "\\u{27}", "\\u{5c}",
        "\\u{80}", "\\u{}", "\\u", "\\u{", "\\u{1", "\\a", "\\x01", "\\U{1}", "\\", "\"", "'", "\r", "\0", "\x7f", "é", "…",
        "...…",
    ] {
        assert_eq!(found(&format!("\"{inside}\"")), None, "{inside}");
        assert_eq!(found(&format!("L\"{inside}\"")), None, "{inside}");
    }
    for text in [
        "", "\"", "L", "L\"", "a", "\"a", "a\"", "l\"a\"", "LL\"a\"", "L \"a\"", " \"a\"", "\"a\" ", "\"a\";", "'a'", "\"a\"b\"",
        "sub_401000",
    ] {
        assert_eq!(found(text), None, "{text}");
    }
    for (length, mark) in [(81, ""), (79, "…"), (81, "…"), (0, "…"), (80, "……"), (80, "…a"), (80, "…\\"), (336, ""), (336, "…")]
    {
        assert_eq!(found(&format!("\"{}{mark}\"", "a".repeat(length))), None, "{length}{mark}");
    }
    let full = [b"\"", &[b'a'; 80][..], b"\xe2\x80\""].concat();
    assert_eq!(string(&full), None);
}

/// Lists that fit, longer ones, one too short; each number of values; with a number nothing is changed.
#[test]
fn lists_of_a_call() {
    let call = |kind: u8, text: &[u8], room: usize| {
        let (mut out, mut values) = (vec![0xee; room], [7; 4]);
        let no = read(kind, text, &mut out, &mut values);
        (no, out, values)
    };
    assert_eq!(call(5, b"L\"a\\r\"", 2), (0, b"a\r".to_vec(), [2, 1, 0, 7]));
    assert_eq!(call(5, b"\"a\\r\"", 4), (0, b"a\r\xee\xee".to_vec(), [2, 0, 0, 7]));
    assert_eq!(call(5, b"L\"a\\r\"", 1), (12, vec![0xee; 1], [0, 0, 0, 7]));
    assert_eq!(call(5, b"L\"a\\r", 1), (17, vec![0xee; 1], [0, 0, 0, 7]));
    assert_eq!(call(5, b"\"\"", 0), (0, vec![], [0, 0, 0, 7]));
    for kind in (0..=255).filter(|kind| *kind != 5) {
        assert_eq!(call(kind, b"\"a\"", 0).0, 17);
    }
    for given in 0..=4 {
        let mut values = [7; 4];
        assert_eq!(read(5, b"L\"ab\"", &mut [0; 2], &mut values[..given]), 0);
        let want: Vec<u64> = [2, 1, 0].into_iter().take(given).chain([7; 4]).take(4).collect();
        assert_eq!(values[..], want);
    }
}

/// Every string of at most 80 characters comes back as it was, of a longer one the first 80.
#[test]
fn any_strings_come_back() {
    let mut rng = Rng::new(1);
    for n in 0..2000 {
        let (made, wide) = (any::string(&mut rng), n % 2 == 0);
        let want = Literal { bytes: made[..made.len().min(80)].to_vec(), wide, cut: made.len() > 80 };
        assert_eq!(string(&literal(wide, &made)), Some(want));
    }
}

/// Of each kind of damage all texts are refused, but for the last kinds, of which some are literals unless they are cut off.
#[test]
fn damage_does_harm() {
    let mut rng = Rng::new(1);
    for kind in 0..damage::KINDS {
        let refused = (0..500).filter(|n| {
            let made = any::string(&mut rng);
            let text = literal(n % 2 == 0, &made);
            string(&damage::damaged(&mut rng, &string(&text).unwrap(), kind)).is_none()
        });
        let refused = refused.count();
        let harmless = damage::HARMLESS.contains(&kind) && damage::name(kind) != "cut off";
        assert_eq!(refused < 500, harmless, "{}: {refused}", damage::name(kind));
    }
}

/// How many calls of a small comparison differ.
fn differ(port: Reader) -> usize {
    compared(port, 3, 1, 300, None).unwrap().differ()
}

#[test]
fn the_second_implementation_agrees_with_itself() {
    assert_eq!(differ(read), 0);
}

/// A reader that takes more than literals: it mends the text first.
macro_rules! mends {
    ($change:expr) => {
        |kind, text, out, values| read(kind, &$change(text), out, values)
    };
}

fn replaced(text: &[u8], from: &[u8], to: &[u8]) -> Vec<u8> {
    match text.windows(from.len()).position(|part| part == from) {
        Some(at) => [&text[..at], to, &text[at + from.len()..]].concat(),
        None => text.to_vec(),
    }
}

/// The text with every code in lower case.
fn lowered(text: &[u8]) -> Vec<u8> {
    let mut code = false;
    let lower = |at: usize| {
        code = text[..at].ends_with(b"\\u{") || code && text[at] != b'}';
        if code {
            text[at].to_ascii_lowercase()
        } else {
            text[at]
        }
    };
    (0..text.len()).map(lower).collect()
}

/// A literal of these characters, with or without the mark, as one that is written; any other text as it is.
fn counted(text: &[u8], from: (usize, bool), to: (usize, bool)) -> Vec<u8> {
    let Some(inside) = text.strip_prefix(b"\"").and_then(|rest| rest.strip_suffix(b"\"")) else { return text.to_vec() };
    let (cut, spelled) = without(inside, |inside| inside.strip_suffix(MARK));
    match characters(spelled) {
        Some(bytes) if (bytes.len(), cut) == from => {
            let bytes: Vec<u8> = bytes.into_iter().chain([b'a'; 2]).take(to.0 + usize::from(to.1)).collect();
            literal(false, &bytes)
        }
        _ => text.to_vec(),
    }
}

/// A reader that answers otherwise where the right one accepts.
macro_rules! then {
    ($change:expr) => {
        |kind, text, out, values| {
            let no = read(kind, text, out, values);
            if no == 0 {
                $change(text, out, values);
            }
            no
        }
    };
}

fn set(values: &mut [u64], at: usize, value: u64) {
    values.iter_mut().skip(at).take(1).for_each(|entry| *entry = value);
}

#[test]
fn wrong_readers_are_noticed() {
    let wrong: [(&str, Reader); 27] = [
        ("\\u{0} accepted", mends!(|text| replaced(text, b"\\u{0}", b"\\0"))),
        ("\\u{0d} accepted", mends!(|text| replaced(text, b"\\u{0d}", b"\\r"))),
        ("leading zeros accepted", mends!(|text| replaced(text, b"\\u{0", b"\\u{"))),
        ("upper-case digits accepted", mends!(lowered)),
        ("code of a letter accepted", mends!(|text| replaced(text, b"\\u{41}", b"A"))),
        ("an apostrophe as it is accepted", mends!(|text| replaced(&replaced(text, b"\\'", b"'"), b"'", b"\\'"))),
        ("0x7f as it is accepted", mends!(|text| replaced(text, b"\x7f", b"\\u{7f}"))),
        ("CR as it is accepted", mends!(|text| replaced(text, b"\r", b"\\r"))),
        (
            "0xe2 accepted",
            mends!(|text: &[u8]| if text.ends_with(b"\xa6\"") { text.to_vec() } else { replaced(text, b"\xe2", b"a") }),
        ),
        ("l for L", mends!(|text| replaced(text, b"l\"", b"L\""))),
        ("bytes behind the quote", mends!(|text: &[u8]| text.strip_suffix(b";").unwrap_or(text).to_vec())),
        ("the 81st character kept", mends!(|text| counted(text, (81, false), (80, false)))),
        (
            "80 characters refused",
            mends!(|text| if counted(text, (80, false), (0, false)) == b"\"\"" { vec![] } else { text.to_vec() }),
        ),
        ("the mark after 79", mends!(|text| counted(text, (79, true), (80, true)))),
        ("a cut literal of 81", mends!(|text| counted(text, (81, true), (80, true)))),
        ("80 characters cut", mends!(|text| counted(text, (80, false), (80, true)))),
        ("80 characters not cut", mends!(|text| counted(text, (80, true), (80, false)))),
        ("wide forgotten", then!(|_, _: &mut [u8], values: &mut [u64]| set(values, 1, 0))),
        ("wide always", then!(|_, _: &mut [u8], values: &mut [u64]| set(values, 1, 1))),
        ("a fourth value", then!(|_, _: &mut [u8], values: &mut [u64]| set(values, 3, 0))),
        ("the text's length", then!(|text: &[u8], _: &mut [u8], values: &mut [u64]| set(values, 0, text.len() as u64 - 2))),
        ("zeros behind the string", then!(|_, out: &mut [u8], values: &mut [u64]| zeros_behind(out, values))),
        ("kinds not looked at", |_, text, out, values| read(ADDRESS, text, out, values)),
        ("12 before 17", |kind, text, out, values| if out.is_empty() { short(values) } else { read(kind, text, out, values) }),
        ("an exact fit refused", exact_refused),
        ("bytes stored with a number", stored_anyway),
        ("the length with a number", |kind, text, out, values| {
            let no = read(kind, text, out, values);
            if no == NO_ROOM {
                set(values, 0, 1);
            }
            no
        }),
    ];
    for (what, reader) in wrong {
        let count = differ(reader);
        println!("{what}: {count} differ");
        assert!(count > 0, "{what} is not noticed");
    }
}

fn zeros_behind(out: &mut [u8], values: &[u64]) {
    let length = values.first().map_or(out.len(), |length| *length as usize);
    out[length..].fill(0);
}

fn short(values: &mut [u64]) -> u8 {
    values.iter_mut().take(VALUES).for_each(|value| *value = 0);
    NO_ROOM
}

fn exact_refused(kind: u8, text: &[u8], out: &mut [u8], values: &mut [u64]) -> u8 {
    match string(text) {
        Some(found) if kind == ADDRESS && found.bytes.len() == out.len() => short(values),
        _ => read(kind, text, out, values),
    }
}

fn stored_anyway(kind: u8, text: &[u8], out: &mut [u8], values: &mut [u64]) -> u8 {
    let no = read(kind, text, out, values);
    if no == NO_ROOM && !out.is_empty() {
        out[0] = 0;
    }
    no
}
