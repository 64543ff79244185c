//! What the proved programs print, of a record in memory: the page of `listing`, the rows of `to_csv`, the table of `keyer`.

use cakirotu::{Listing, Names, Refusal, Table, View};

/// The listing of a whole record.
pub fn listing(record: &[u8]) -> Result<Listing, Refusal> {
    cakirotu::list(record, cakirotu::blocks(record))
}

pub fn page(record: &[u8]) -> Result<Vec<u8>, Refusal> {
    Ok(page_text(listing(record)?.view()))
}

pub fn rows(record: &[u8]) -> Result<Vec<u8>, Refusal> {
    cakirotu::write_rows(listing(record)?.view())
}

pub fn table(record: &[u8], names: Names<'_>) -> Result<Vec<u8>, Refusal> {
    Ok(table_text(&cakirotu::command_table(listing(record)?.view(), names)?))
}

/// The line count; then address (sixteen upper hex digits, or dashes if none), a space, two spaces per indent, the text.
fn page_text(view: View<'_>) -> Vec<u8> {
    let mut out = format!("lines={}\n", view.lines().len()).into_bytes();
    for line in view.lines() {
        let address = line.address.map_or("-".repeat(16), |address| format!("{address:016X}"));
        out.extend(format!("{address} {:1$}", "", 2 * usize::from(line.indent)).as_bytes());
        out.extend(line.text());
        out.push(b'\n');
    }
    out
}

/// Address in sixteen upper hex digits, a space and upper hex pairs, unspaced, or a dash, a line each.
fn table_text(table: &Table) -> Vec<u8> {
    let mut out = String::new();
    for (address, bytes) in table {
        let pairs = bytes.map_or("-".into(), |bytes| bytes.iter().map(|b| format!("{b:02X}")).collect::<String>());
        out.push_str(&format!("{address:016X} {pairs}\n"));
    }
    out.into_bytes()
}
