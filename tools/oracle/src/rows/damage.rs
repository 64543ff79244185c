//! Files that are rows no longer, or other rows: a change to a field or a row end, or to any byte.

use super::any;
use super::write::fields;
use super::Row;
use crate::rng::Rng;

/// A row in the making: its fields as they stand in the file, and what ends it.
pub struct Line {
    fields: Vec<Vec<u8>>,
    end: Vec<u8>,
}

type ToLines = fn(&mut Rng, &mut Vec<Line>);
type ToBytes = fn(&mut Rng, &mut Vec<u8>);

/// What is done to one of the lines, or to all. The last ones leave rows that the writer can produce.
const TO_LINES: [(&str, ToLines); 31] = [
    ("leading zero", |rng, lines| number(rng, lines).insert(0, b'0')),
    ("number left out", |rng, lines| number(rng, lines).clear()),
    ("number spelled otherwise", |rng, lines| respell(rng, lines)),
    ("lower-case digit", |rng, lines| digit(rng, lines, b"abcdef")),
    ("no digit", |rng, lines| digit(rng, lines, b"Ggx-/:@` \"\0\xff")),
    ("address of other than 16 digits", |rng, lines| address_length(rng, lines)),
    ("indent of 255 or more", |rng, lines| line(rng, lines).fields[1] = above(rng, 254)),
    ("place of 65536 or more", |rng, lines| line(rng, lines).fields[2] = above(rng, 65_535)),
    ("LF alone", |rng, lines| line(rng, lines).end = b"\n".to_vec()),
    ("CR alone", |rng, lines| line(rng, lines).end = b"\r".to_vec()),
    ("other row end", |rng, lines| {
        line(rng, lines).end = rng.pick(&[&b"\n\r"[..], b"\r\r\n", b"\n\n", b" \r\n", b",\r\n", b""]).to_vec()
    }),
    ("empty row", |rng, lines| line(rng, lines).end.extend(b"\r\n")),
    ("no last CR LF", |rng, lines| last(lines).end.truncate(rng.below(2))),
    ("unquoted text", |rng, lines| unquote(text(rng, lines))),
    ("quoted letter", |rng, lines| quote(letter(rng, lines))),
    ("quoted number", |rng, lines| quote(&mut line(rng, lines).fields[rng.below(3)])),
    ("quotes not doubled", |rng, lines| lone_quote(rng, lines)),
    ("byte beside the quotes", |rng, lines| beside_quotes(rng, lines)),
    ("empty token", |rng, lines| *text(rng, lines) = b"\"\"".to_vec()),
    ("line without tokens", |rng, lines| line(rng, lines).fields.truncate(3)),
    ("no place", |rng, lines| drop(line(rng, lines).fields.remove(2))),
    ("field left out", |rng, lines| field_out(rng, lines)),
    ("field added", |rng, lines| field_in(rng, lines)),
    ("another letter", |rng, lines| *letter(rng, lines) = other_letter(rng)),
    ("heading row", |_, lines| lines.insert(0, heading())),
    ("byte order mark", |_, lines| drop(lines[0].fields[0].splice(..0, *b"\xef\xbb\xbf"))),
    ("other separator", |rng, lines| separate(rng, lines)),
    ("other number", |rng, lines| other_number(rng, lines)),
    ("row twice", |rng, lines| twice(rng, lines)),
    ("row left out", |rng, lines| drop(lines.remove(rng.below(lines.len())))),
    ("rows exchanged", |rng, lines| rng.shuffle(lines)),
];

const TO_BYTES: [(&str, ToBytes); 6] = [
    ("byte changed", |rng, file| *byte(rng, file) = any_byte(rng)),
    ("stray byte", |rng, file| file.insert(rng.below(file.len() + 1), any_byte(rng))),
    ("byte left out", |rng, file| byte_out(rng, file)),
    ("cut off", |rng, file| file.truncate(rng.below(file.len()))),
    ("bytes exchanged", |rng, file| exchange(rng, file)),
    ("part twice", |rng, file| part_twice(rng, file)),
];

pub const KINDS: usize = TO_LINES.len() + TO_BYTES.len();

/// What a kind of damage is called.
pub fn name(kind: usize) -> &'static str {
    TO_LINES.get(kind).map_or_else(|| TO_BYTES[kind - TO_LINES.len()].0, |(name, _)| name)
}

/// The file of these rows, of which there is one or more, with one kind of damage at a random place.
pub fn damaged(rng: &mut Rng, rows: &[Row], kind: usize) -> Vec<u8> {
    let mut lines: Vec<Line> = rows.iter().map(|row| Line { fields: fields(row), end: b"\r\n".to_vec() }).collect();
    match TO_LINES.get(kind) {
        Some((_, damage)) => {
            damage(rng, &mut lines);
            join(&lines)
        }
        None => {
            let mut file = join(&lines);
            TO_BYTES[kind - TO_LINES.len()].1(rng, &mut file);
            file
        }
    }
}

fn join(lines: &[Line]) -> Vec<u8> {
    lines.iter().flat_map(|line| [line.fields.join(&b','), line.end.clone()].concat()).collect()
}

fn line<'a>(rng: &mut Rng, lines: &'a mut [Line]) -> &'a mut Line {
    let n = rng.below(lines.len());
    &mut lines[n]
}

fn last(lines: &mut [Line]) -> &mut Line {
    lines.last_mut().expect("a row")
}

/// The indent or the place of a line.
fn number<'a>(rng: &mut Rng, lines: &'a mut [Line]) -> &'a mut Vec<u8> {
    let which = rng.range(1, 2);
    &mut line(rng, lines).fields[which]
}

fn letter<'a>(rng: &mut Rng, lines: &'a mut [Line]) -> &'a mut Vec<u8> {
    token(rng, lines, 0)
}

fn text<'a>(rng: &mut Rng, lines: &'a mut [Line]) -> &'a mut Vec<u8> {
    token(rng, lines, 1)
}

/// One of the two fields of a token.
fn token<'a>(rng: &mut Rng, lines: &'a mut [Line], which: usize) -> &'a mut Vec<u8> {
    let line = line(rng, lines);
    let token = rng.below((line.fields.len() - 3) / 2);
    &mut line.fields[3 + 2 * token + which]
}

fn any_byte(rng: &mut Rng) -> u8 {
    match rng.percent(60) {
        true => rng.pick(b"\",\r\n\\ 0123456789ABCDEFXRNKSP;\t"),
        false => rng.below(256) as u8,
    }
}

fn respell(rng: &mut Rng, lines: &mut [Line]) {
    let number = number(rng, lines);
    match rng.below(5) {
        0 => number.insert(0, rng.pick(b"+- \t")),
        1 => number.push(rng.pick(b" .,;\t")),
        2 => number.extend(b".0"),
        3 => *number = b"1e1".to_vec(),
        _ => *number = [b"0x", &number[..]].concat(),
    }
}

/// Another byte in the place of a digit of an address; a line without one gets one.
fn digit(rng: &mut Rng, lines: &mut [Line], bytes: &[u8]) {
    let address = &mut line(rng, lines).fields[0];
    if address.is_empty() {
        *address = b"0123456789ABCDEF".to_vec();
    }
    address[rng.below(16)] = rng.pick(bytes);
}

fn address_length(rng: &mut Rng, lines: &mut [Line]) {
    let address = &mut line(rng, lines).fields[0];
    let length = rng.pick(&[1, 2, 8, 14, 15, 17, 18, 24, 32, 33]);
    *address = (0..length).map(|_| rng.pick(b"0123456789ABCDEF")).collect();
}

/// A number above the most, near it, or where 8, 16, 32 or 64 bits end and it would be small again.
fn above(rng: &mut Rng, most: u128) -> Vec<u8> {
    let n = match rng.below(4) {
        0 => most + 1,
        1 => most + 1 + rng.below(200) as u128,
        2 => most + 1 + u128::from(rng.any_width()),
        _ => rng.pick(&[1 << 16, 1 << 24, 1 << 32, 1 << 64]) + rng.below(100) as u128,
    };
    n.to_string().into_bytes()
}

fn quote(field: &mut Vec<u8>) {
    field.insert(0, b'"');
    field.push(b'"');
}

fn unquote(field: &mut Vec<u8>) {
    field.remove(0);
    field.pop();
}

/// A quote inside the text with none beside it.
fn lone_quote(rng: &mut Rng, lines: &mut [Line]) {
    let text = text(rng, lines);
    text.insert(rng.range(1, text.len() - 1), b'"');
}

fn beside_quotes(rng: &mut Rng, lines: &mut [Line]) {
    let byte = any_byte(rng);
    let text = text(rng, lines);
    let at = rng.pick(&[0, text.len()]);
    text.insert(at, byte);
}

fn field_out(rng: &mut Rng, lines: &mut [Line]) {
    let line = line(rng, lines);
    line.fields.remove(rng.below(line.fields.len()));
}

fn field_in(rng: &mut Rng, lines: &mut [Line]) {
    let line = line(rng, lines);
    let field = rng.pick(&[&b""[..], b"X", b"0", b"\"\"", b"\"x\"", b"0123456789ABCDEF"]);
    line.fields.insert(rng.below(line.fields.len() + 1), field.to_vec());
}

fn other_letter(rng: &mut Rng) -> Vec<u8> {
    match rng.below(4) {
        0 => rng.pick(&[&b"x"[..], b"r", b"n", b"k", b"s", b"a", b"p", b"f"]).to_vec(),
        1 => rng.pick(&[&b""[..], b"XX", b"XR", b" X", b"X ", b"0", b"7"]).to_vec(),
        _ => vec![rng.below(256) as u8],
    }
}

fn heading() -> Line {
    let fields = ["address", "indent", "place", "kind", "text"].map(|field| field.as_bytes().to_vec());
    Line { fields: fields.to_vec(), end: b"\r\n".to_vec() }
}

/// Semicolons or tabs throughout a line, or in the place of one comma.
fn separate(rng: &mut Rng, lines: &mut [Line]) {
    let separator = rng.pick(b";\t|");
    let line = line(rng, lines);
    if rng.percent(50) {
        line.fields = vec![line.fields.join(&separator)];
    } else {
        let at = rng.below(line.fields.len() - 1);
        let second = line.fields.remove(at + 1);
        line.fields[at].push(separator);
        line.fields[at].extend(second);
    }
}

/// Another address, indent or place that a row can have.
fn other_number(rng: &mut Rng, lines: &mut [Line]) {
    let other = Row { address: any::address(rng), indent: any::indent(rng), place: any::place(rng), tokens: vec![] };
    let which = rng.below(3);
    line(rng, lines).fields[which] = fields(&other)[which].clone();
}

fn twice(rng: &mut Rng, lines: &mut Vec<Line>) {
    let n = rng.below(lines.len());
    let again = Line { fields: lines[n].fields.clone(), end: lines[n].end.clone() };
    lines.insert(n, again);
}

fn byte<'a>(rng: &mut Rng, file: &'a mut [u8]) -> &'a mut u8 {
    let at = rng.below(file.len());
    &mut file[at]
}

fn byte_out(rng: &mut Rng, file: &mut Vec<u8>) {
    file.remove(rng.below(file.len()));
}

/// Two neighbours.
fn exchange(rng: &mut Rng, file: &mut [u8]) {
    let at = rng.below(file.len() - 1);
    file.swap(at, at + 1);
}

fn part_twice(rng: &mut Rng, file: &mut Vec<u8>) {
    let from = rng.below(file.len());
    let to = rng.range(from, file.len().min(from + 40));
    let part = file[from..to].to_vec();
    file.splice(from..from, part);
}
