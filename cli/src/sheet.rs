//! `sheet`: listings as one table for reading and filtering, every row of the same width, with a heading.

use cakirotu::{Kind, Line, Listing, Token};

use crate::args::Sources;
use crate::from_sheet::LETTERS;
use crate::input::{self, NoRecord, Part};
use crate::many::{self, Answer};
use crate::printed;
use crate::status::Status;

/// The columns before the tokens.
const COLUMNS: [&str; 6] = ["address", "place", "indent", "kind", "callee", "text"];

/// The table of all records. Of one record that is refused the refusal stands on standard output; of several on standard error, so that the
/// table stays one.
pub fn sheet(sources: &Sources) -> Answer {
    let mut answer = Answer { out: Vec::new(), err: String::new(), status: Status::Listed };
    let parts = parts(sources, &mut answer);
    let alone = parts.len() == 1;
    let mut listings = Vec::new();
    for Part { name, record } in parts {
        match listed(record) {
            Ok(listing) => listings.push(listing),
            Err((why, Status::Refused)) if alone => answer = many::refused(&why),
            Err((why, status)) => fails(&mut answer, &format!("{name}: {why}"), status),
        }
    }
    if !listings.is_empty() {
        answer.out = table(&listings);
    }
    answer
}

fn parts(sources: &Sources, answer: &mut Answer) -> Vec<Part> {
    let mut parts = Vec::new();
    for file in input::files(&sources.files, "rec") {
        match file {
            Ok(path) => parts.extend(input::parts(&path, sources.routine.as_deref())),
            Err(why) => fails(answer, &why, Status::Unread),
        }
    }
    parts
}

fn listed(record: Result<Vec<u8>, NoRecord>) -> Result<Listing, (String, Status)> {
    match record {
        Ok(record) => printed::listing(&record).map_err(|refusal| (refusal.to_string(), Status::Refused)),
        Err(NoRecord::Unrecorded(why)) => Err((why.to_string(), Status::Refused)),
        Err(NoRecord::Unread(why)) => Err((why, Status::Unread)),
    }
}

fn fails(answer: &mut Answer, why: &str, status: Status) {
    answer.err.push_str(&format!("cakirotu: {why}\n"));
    answer.status = answer.status.max(status);
}

/// Every line of the listings as a row, filled up to the longest. Two columns a token: its letter and its text.
pub fn table(listings: &[Listing]) -> Vec<u8> {
    let lines = || listings.iter().flat_map(|listing| listing.view().lines());
    let tokens = lines().map(|line| line.tokens().len()).max().unwrap_or(0);
    let mut out = csv::WriterBuilder::new().terminator(csv::Terminator::CRLF).from_writer(Vec::new());
    let numbered = (1..=tokens).flat_map(|n| [format!("letter {n}"), format!("piece {n}")]);
    let heading: Vec<Vec<u8>> = COLUMNS.map(String::from).into_iter().chain(numbered).map(String::into_bytes).collect();
    let rows = lines().map(|line| {
        let mut row = fields(&line);
        row.resize(heading.len(), Vec::new());
        row
    });
    for row in std::iter::once(heading.clone()).chain(rows) {
        out.write_byte_record(&row.into()).expect("memory is written, rows are of one width");
    }
    out.into_inner().expect("memory is written")
}

fn fields(line: &Line<'_>) -> Vec<Vec<u8>> {
    let tokens: Vec<Token<'_>> = line.tokens().collect();
    let address = line.address.map_or(String::new(), |address| format!("{address:016X}"));
    let (kind, callee) = kind_and_callee(&tokens);
    let mut row = vec![
        address.into_bytes(),
        line.place.to_string().into_bytes(),
        line.indent.to_string().into_bytes(),
        kind.into(),
        callee.to_vec(),
        line.text().to_vec(),
    ];
    row.extend(tokens.iter().flat_map(|token| [vec![LETTERS[token.kind as usize]], token.text.to_vec()]));
    row
}

/// What a line is (docs/READING.md, "Lines"), and the name or address that it calls, if it has one.
fn kind_and_callee<'a>(tokens: &[Token<'a>]) -> (&'static str, &'a [u8]) {
    let text = |at: usize| tokens.get(at).map_or(&b""[..], |token| token.text);
    let symbol = |at: usize| tokens.get(at).is_some_and(|token| token.kind == Kind::Symbol);
    let last = tokens.last().map_or(&b""[..], |token| token.text);
    let none = &b""[..];
    match (text(0), tokens.first().map(|token| token.kind)) {
        (b"if", Some(Kind::Keyword)) if last.ends_with(b"{") => ("if", none),
        (b"if", Some(Kind::Keyword)) if tokens.iter().any(|t| t.kind == Kind::Keyword && t.text == b"goto") => ("branch", none),
        (b"if", Some(Kind::Keyword)) => ("conditional move", none),
        (b"do", Some(Kind::Keyword)) => ("do", none),
        (b"goto", Some(Kind::Keyword)) if symbol(2) => ("goto", none),
        (b"goto", Some(Kind::Keyword)) => ("computed goto", none),
        (b"return", Some(Kind::Keyword)) if symbol(2) => ("leave", text(2)),
        (b"return", Some(Kind::Keyword)) if last.ends_with(b");") => ("leave", none),
        (b"return", Some(Kind::Keyword)) => ("return", none),
        (b"__asm", Some(Kind::Keyword)) => ("asm", none),
        (b"}", _) => ("end", none),
        (b"} ", _) => ("while", none),
        (_, Some(Kind::Symbol)) if tokens.len() == 2 && text(1) == b":" => ("label", none),
        _ if text(1) == b" = " && symbol(2) && text(3).starts_with(b"(") => ("call", text(2)),
        _ if text(1) == b" = " && text(2).starts_with(b"((void (*)())") => ("call", none),
        _ => ("set", none),
    }
}
