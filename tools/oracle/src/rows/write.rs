//! The writer.

use super::{Row, Token, LETTERS};

/// "An empty listing is an empty file."
pub fn file(rows: &[Row]) -> Vec<u8> {
    rows.iter().flat_map(line).collect()
}

/// "Rows end in CR LF and there is no heading row."
fn line(row: &Row) -> Vec<u8> {
    let mut line = fields(row).join(&b',');
    line.extend(b"\r\n");
    line
}

/// A row's fields as they stand in the file.
pub fn fields(row: &Row) -> Vec<Vec<u8>> {
    let address = row.address.map_or(String::new(), |a| format!("{a:016X}"));
    let numbers = [address, row.indent.to_string(), row.place.to_string()];
    let mut fields: Vec<Vec<u8>> = numbers.map(String::into_bytes).to_vec();
    fields.extend(row.tokens.iter().flat_map(|t| [vec![letter(t)], quoted(&t.text)]));
    fields
}

pub fn letter(token: &Token) -> u8 {
    LETTERS[usize::from(token.kind)]
}

/// "its text, any bytes, in double quotes, with quotes doubled", "A backslash is copied as one backslash."
fn quoted(text: &[u8]) -> Vec<u8> {
    let mut field = vec![b'"'];
    for byte in text {
        field.push(*byte);
        if *byte == b'"' {
            field.push(b'"');
        }
    }
    field.push(b'"');
    field
}
