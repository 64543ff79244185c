//! The reader: first the fields of any file after RFC 4180, then what each field may be.

use super::{Row, Token, LETTERS, MOST_INDENT};

/// A field with its quotes taken off.
struct Field {
    quoted: bool,
    text: Vec<u8>,
}

/// The rows of a file; none if the writer produces no such file.
pub fn rows(file: &[u8]) -> Option<Vec<Row>> {
    let mut rest = file;
    let mut rows = Vec::new();
    while !rest.is_empty() {
        let (fields, behind) = record(rest)?;
        rows.push(row(&fields)?);
        rest = behind;
    }
    Some(rows)
}

/// RFC 4180's `record = field *(COMMA field)` and the line break behind it, which the last row has too.
fn record(file: &[u8]) -> Option<(Vec<Field>, &[u8])> {
    let mut fields = Vec::new();
    let mut rest = file;
    loop {
        let (field, behind) = field(rest)?;
        fields.push(field);
        match behind {
            [b',', more @ ..] => rest = more,
            [b'\r', b'\n', more @ ..] => return Some((fields, more)),
            _ => return None,
        }
    }
}

fn field(file: &[u8]) -> Option<(Field, &[u8])> {
    match file {
        [b'"', inside @ ..] => escaped(inside),
        _ => Some(non_escaped(file)),
    }
}

/// RFC 4180's `escaped`, behind its first quote: up to the first quote that no other one follows.
fn escaped(inside: &[u8]) -> Option<(Field, &[u8])> {
    let mut text = Vec::new();
    let mut rest = inside;
    loop {
        match rest {
            [b'"', b'"', more @ ..] => {
                text.push(b'"');
                rest = more;
            }
            [b'"', more @ ..] => return Some((Field { quoted: true, text }, more)),
            [byte, more @ ..] => {
                text.push(*byte);
                rest = more;
            }
            [] => return None,
        }
    }
}

/// RFC 4180's `non-escaped`: no comma, no quote, no CR and no LF.
fn non_escaped(file: &[u8]) -> (Field, &[u8]) {
    let end = file.iter().position(|b| b",\"\r\n".contains(b)).unwrap_or(file.len());
    let (text, rest) = file.split_at(end);
    (Field { quoted: false, text: text.to_vec() }, rest)
}

/// Three fields and then two for each token, of which there is one or more.
fn row(fields: &[Field]) -> Option<Row> {
    let (head, tokens) = fields.split_at_checked(3)?;
    if tokens.is_empty() || tokens.len() % 2 != 0 {
        return None;
    }
    Some(Row {
        address: address(plain(&head[0])?)?,
        indent: decimal(plain(&head[1])?, MOST_INDENT)? as u8,
        place: decimal(plain(&head[2])?, u16::MAX)?,
        tokens: tokens.chunks(2).map(|pair| token(&pair[0], &pair[1])).collect::<Option<_>>()?,
    })
}

fn plain(field: &Field) -> Option<&[u8]> {
    (!field.quoted).then_some(&field.text)
}

/// "address as sixteen upper hex digits or empty if the line has none": the inner answer is none for a line without one.
fn address(text: &[u8]) -> Option<Option<u64>> {
    if text.is_empty() {
        return Some(None);
    }
    let digits = text.len() == 16 && text.iter().all(|b| b"0123456789ABCDEF".contains(b));
    digits.then(|| u64::from_str_radix(std::str::from_utf8(text).unwrap(), 16).ok())
}

/// "in decimal without leading zeros": the number whose digits these are, up to the most.
fn decimal(text: &[u8], most: u16) -> Option<u16> {
    let number: u16 = std::str::from_utf8(text).ok()?.parse().ok()?;
    (number <= most && number.to_string().as_bytes() == text).then_some(number)
}

fn token(letter: &Field, text: &Field) -> Option<Token> {
    let &[letter] = plain(letter)? else { return None };
    let kind = LETTERS.iter().position(|l| *l == letter)? as u8;
    (text.quoted && !text.text.is_empty()).then(|| Token { kind, text: text.text.clone() })
}
