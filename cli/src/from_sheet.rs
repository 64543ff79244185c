//! `from-sheet`: strict rows again of a file that a spreadsheet saved. Nothing is guessed: a field that no listing has is refused, with its place and
//! the cure.

use std::path::Path;

use cakirotu::{Kind, Token};
use csv::ByteRecord;

use crate::input;
use crate::many::Answer;
use crate::quoting;
use crate::status::Status;

/// The letters of the kinds 0 to 7 in rows.
pub const LETTERS: &[u8; 8] = b"XRNKSAPF";

/// More refused fields than this are counted, not shown: a column that was no text has one in every row.
const SHOWN: usize = 10;

const CURE_ADDRESS: &str = "open the rows again with column A as text";

/// Why a field is refused, and where it stands.
#[derive(Debug, PartialEq, Eq)]
pub struct Fault {
    pub line: usize,
    /// Counted from 0.
    pub column: usize,
    pub why: String,
}

/// The rows on standard output, or the faults on standard error.
pub fn from_sheet(path: &Path) -> Answer {
    let name = path.display().to_string();
    let saved = match input::read_file(path) {
        Ok(saved) => saved,
        Err(why) => return Answer::unread(&name, &why),
    };
    match strict_rows(&saved) {
        Ok(rows) => Answer { out: rows, err: String::new(), status: Status::Listed },
        Err(faults) => Answer { out: Vec::new(), err: told(&name, &faults), status: Status::Refused },
    }
}

fn told(name: &str, faults: &[Fault]) -> String {
    let mut text = String::new();
    for fault in faults.iter().take(SHOWN) {
        text.push_str(&format!("cakirotu: {name}: line {}, column {}: {}\n", fault.line, letters(fault.column), fault.why));
    }
    if faults.len() > SHOWN {
        text.push_str(&format!("cakirotu: {name}: {} more fields are refused\n", faults.len() - SHOWN));
    }
    text
}

/// A column as a spreadsheet names it: A to Z, then AA.
fn letters(column: usize) -> String {
    let last = char::from(b'A' + (column % 26) as u8);
    if column < 26 {
        last.into()
    } else {
        letters(column / 26 - 1) + &last.to_string()
    }
}

/// The rows as the library accepts them, or every fault.
pub fn strict_rows(saved: &[u8]) -> Result<Vec<u8>, Vec<Fault>> {
    let saved = saved.strip_prefix(b"\xEF\xBB\xBF").unwrap_or(saved);
    if matches!(saved.iter().find(|b| b",;\t".contains(b)), Some(b';' | b'\t')) {
        let why = "fields are not separated by commas: save with the field delimiter , (comma)".into();
        return Err(vec![Fault { line: 1, column: 0, why }]);
    }
    if let Some((line, column, why)) = quoting::fault(saved) {
        return Err(vec![Fault { line, column, why: format!("{why}: save it again as CSV with the string delimiter \"") }]);
    }
    let (mut rows, mut faults) = (Vec::new(), Vec::new());
    for (line, fields) in table(saved)? {
        match row(&fields) {
            Ok(text) => rows.extend(text),
            Err((column, why)) => faults.push(Fault { line, column, why }),
        }
    }
    if !faults.is_empty() {
        return Err(faults);
    }
    match cakirotu::read_rows(&rows) {
        Ok(_) => Ok(rows),
        Err(refusal) => Err(vec![Fault { line: 1, column: 0, why: refusal.to_string() }]),
    }
}

/// The fields of every row, with the line that it begins in. Empty lines at the end are nothing; one before a row is a fault.
fn table(saved: &[u8]) -> Result<Vec<(usize, ByteRecord)>, Vec<Fault>> {
    let mut reader = csv::ReaderBuilder::new().has_headers(false).flexible(true).from_reader(saved);
    let (mut table, mut lines, mut fields) = (Vec::new(), Lines { saved, at: 0, line: 1 }, ByteRecord::new());
    loop {
        let begin = reader.position().byte() as usize;
        match reader.read_byte_record(&mut fields) {
            Ok(false) => return Ok(table),
            Ok(true) => {
                let line = lines.line_at(begin);
                if lines.is_empty_line() {
                    return Err(vec![Fault { line, column: 0, why: "the line is empty: delete the row".into() }]);
                }
                table.push((line, fields.clone()));
            }
            Err(e) => return Err(vec![Fault { line: lines.line_at(begin), column: 0, why: e.to_string() }]),
        }
    }
}

/// Counts lines up to a byte: CR LF, LF or CR ends one.
struct Lines<'a> {
    saved: &'a [u8],
    at: usize,
    line: usize,
}

impl Lines<'_> {
    fn byte(&self, at: usize) -> u8 {
        self.saved.get(at).copied().unwrap_or(0)
    }

    /// The line of a row. The reader may leave the LF of a CR LF before the row that follows.
    fn line_at(&mut self, begin: usize) -> usize {
        let split = begin > 0 && self.byte(begin - 1) == b'\r' && self.byte(begin) == b'\n';
        let begin = if split { begin + 1 } else { begin };
        while self.at < begin {
            let ends = self.byte(self.at) == b'\n' || (self.byte(self.at) == b'\r' && self.byte(self.at + 1) != b'\n');
            self.line += usize::from(ends);
            self.at += 1;
        }
        self.line
    }

    fn is_empty_line(&self) -> bool {
        matches!(self.byte(self.at), b'\r' | b'\n')
    }
}

type Refused = (usize, String);

/// A strict row of a saved one.
fn row(fields: &ByteRecord) -> Result<Vec<u8>, Refused> {
    let fields: Vec<&[u8]> = fields.iter().collect();
    let width = fields.iter().rposition(|field| !field.is_empty()).map_or(0, |last| last + 1);
    let fields = &fields[..width];
    if let Some(column) = fields.iter().position(|field| std::str::from_utf8(field).is_err()) {
        return Err((column, "the text is not UTF-8: save with the character set Unicode (UTF-8)".into()));
    }
    address(fields)?;
    number(fields, 1, 254, "indent")?;
    number(fields, 2, 65_535, "place of a block")?;
    let mut text = fields[..3].join(&b","[..]);
    if width == 3 {
        return Err((3, "the row has no pieces: take it from `cakirotu rows` again".into()));
    }
    for column in (3..width).step_by(2) {
        text.extend(piece(fields, column)?);
    }
    text.extend(b"\r\n");
    Ok(text)
}

/// Sixteen upper hex digits, or nothing.
fn address(fields: &[&[u8]]) -> Result<(), Refused> {
    let no = |why: String| Err((0, why));
    let Some(field) = fields.first() else {
        return no("the row is empty: delete it".into());
    };
    let digits = field.iter().all(|b| b.is_ascii_hexdigit());
    let shown = shown(field);
    if field.is_empty() || (field.len() == 16 && field.iter().all(|b| matches!(b, b'0'..=b'9' | b'A'..=b'F'))) {
        Ok(())
    } else if field.len() == 16 && digits {
        no(format!("the address {shown} has small letters, rows have capitals: {CURE_ADDRESS}"))
    } else if digits || field.iter().all(|b| b.is_ascii_digit() || b"+-.,eE ".contains(b)) {
        no(format!("{shown} is no address of sixteen digits, a spreadsheet made a number of it: {CURE_ADDRESS}"))
    } else {
        no(format!("{shown} is no address: rows have no heading, delete this row if it is one"))
    }
}

/// A decimal number without zeros in front.
fn number(fields: &[&[u8]], column: usize, most: u32, what: &str) -> Result<(), Refused> {
    let field = fields.get(column).copied().unwrap_or_default();
    let text = std::str::from_utf8(field).unwrap_or_default();
    match text.parse::<u32>() {
        Ok(n) if n <= most && n.to_string() == text => Ok(()),
        _ => Err((column, format!("{} is no {what}, 0 to {most}: open the rows again with all columns as text", shown(field)))),
    }
}

/// A letter and its piece, each with a comma in front.
fn piece(fields: &[&[u8]], column: usize) -> Result<Vec<u8>, Refused> {
    let letter = fields[column];
    let Some(kind) = LETTERS.iter().position(|l| letter == [*l]) else {
        let cure = "remove columns that were added, or take the row from `cakirotu rows` again";
        return Err((column, format!("{} is no letter of a piece, one of X R N K S A P F: {cure}", shown(letter))));
    };
    let text = fields.get(column + 1).copied().unwrap_or_default();
    if let Some(why) = changed(Kind::ALL[kind], text) {
        return Err((column + 1, format!("{} {why}: open the rows again with all columns as text", shown(text))));
    }
    let mut out = vec![b',', LETTERS[kind], b',', b'"'];
    out.extend(text.iter().flat_map(|b| if *b == b'"' { &b"\"\""[..] } else { std::slice::from_ref(b) }));
    out.push(b'"');
    Ok(out)
}

/// Why a piece is none that a listing has.
fn changed(kind: Kind, text: &[u8]) -> Option<&'static str> {
    let of_number = |b: &u8| matches!(b, b'0'..=b'9' | b'a'..=b'f' | b'x' | b'-');
    match kind {
        _ if text.is_empty() => Some("is an empty piece"),
        Kind::Number if !text.iter().all(of_number) => Some("is no number of a listing"),
        Kind::Address if cakirotu::read_literal(Token { kind, text }).is_err() => Some("is no string of a listing"),
        _ => None,
    }
}

/// A field for a message, cut if it is long.
fn shown(field: &[u8]) -> String {
    let text = String::from_utf8_lossy(field);
    let cut: String = text.chars().take(40).collect();
    if cut.len() < text.len() {
        format!("`{cut}…`")
    } else {
        format!("`{cut}`")
    }
}

#[cfg(test)]
mod tests {
    use super::*;

    const ROW: &str = "0000000000401010,1,0,R,\"rax\",P,\" = \",A,\"\"\"FA\\r\"\"\",P,\";\"\r\n";

    fn faults(saved: &str) -> Vec<(usize, usize)> {
        strict_rows(saved.as_bytes()).unwrap_err().into_iter().map(|f| (f.line, f.column)).collect()
    }

    #[test]
    fn columns_have_letters() {
        assert_eq!([0, 25, 26, 51, 52, 701, 702].map(letters), ["A", "Z", "AA", "AZ", "BA", "ZZ", "AAA"]);
    }

    #[test]
    fn strict_rows_stay() {
        assert_eq!(strict_rows(ROW.as_bytes()).unwrap(), ROW.as_bytes());
        assert_eq!(strict_rows(b"").unwrap(), b"");
    }

    #[test]
    fn saved_rows_come_back() {
        let padded = ROW.replace("\r\n", ",,,,\n");
        let all_quoted = "\"0000000000401010\",\"1\",\"0\",\"R\",\"rax\",\"P\",\" = \",\"A\",\"\"\"FA\\r\"\"\",\"P\",\";\"\n\n";
        let marked = format!("\u{feff}{ROW}");
        for saved in [&padded, all_quoted, &marked] {
            assert_eq!(strict_rows(saved.as_bytes()).unwrap(), ROW.as_bytes(), "{saved}");
        }
    }

    #[test]
    fn faults_have_their_place() {
        let two = |first: &str| format!("{first}{ROW}");
        assert_eq!(faults(&two("address,indent,place\r\n")), [(1, 0)]);
        assert_eq!(faults(&two("\r\n")), [(1, 0)]);
        assert_eq!(faults(&two(",,,,\r\n")), [(1, 0)]);
        for address in ["401010", "1E5", "1.20E+05", "000000000040101a", "x"] {
            assert_eq!(faults(&format!("{ROW}{}", ROW.replace("0000000000401010", address))), [(2, 0)], "{address}");
        }
        assert_eq!(faults(&ROW.replace(",1,0,", ",01,0,")), [(1, 1)]);
        assert_eq!(faults(&ROW.replace(",1,0,", ",1,65536,")), [(1, 2)]);
        assert_eq!(faults(&ROW.replace(",R,", ",r,")), [(1, 3)]);
        assert_eq!(faults(&ROW.replace(",R,", ",Q,")), [(1, 3)]);
        assert_eq!(faults(&ROW.replace("\"rax\"", "")), [(1, 4)]);
        assert_eq!(faults(&ROW.replace("FA\\r", "FA\\r\u{201d}")), [(1, 8)]);
        assert_eq!(faults(&ROW.replace(",P,\";\"", ",P")), [(1, 10)]);
        assert_eq!(faults(&ROW.replace("R,\"rax\"", "N,\"1E+05\"")), [(1, 4)]);
        assert_eq!(faults("0000000000401010,1,0,,,\n"), [(1, 3)]);
        assert_eq!(faults("0000000000401010;1;0;R;rax\n"), [(1, 0)]);
        assert_eq!(faults(&ROW[..ROW.len() - 3]), [(1, 10)]);
        assert_eq!(faults("0000000000401010\n"), [(1, 1)]);
    }

    /// Every change of every byte: refused, or rows that stay as they are.
    #[test]
    fn changed_bytes_are_refused_or_give_rows() {
        let saved = format!("{ROW}{}", ROW.replace("\r\n", ",,\n"));
        for at in 0..saved.len() {
            for byte in 0..=255 {
                let mut changed = saved.clone().into_bytes();
                changed[at] = byte;
                if let Ok(rows) = strict_rows(&changed) {
                    assert_eq!(strict_rows(&rows).unwrap(), rows);
                }
            }
        }
    }

    #[test]
    fn cut_files_are_refused_or_give_rows() {
        for end in 0..ROW.len() {
            if let Ok(rows) = strict_rows(&ROW.as_bytes()[..end]) {
                assert!(cakirotu::read_rows(&rows).is_ok());
            }
        }
    }
}
