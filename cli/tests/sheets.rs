//! from-sheet: rows changed as spreadsheets change them come back byte for byte; changed fields are refused with their place.

mod common;

use std::fs;

use common::{command, example_files, printed, record, with_input};

/// The rows of every example that is listed, and of every small routine.
fn all_rows() -> Vec<Vec<u8>> {
    let mut records: Vec<Vec<u8>> =
        example_files("txt").iter().map(|text| fs::read(record(text.file_stem().unwrap().to_str().unwrap())).unwrap()).collect();
    records.extend((0..cakirotu::ROUTINES).step_by(25).map(|number| cakirotu::routine(number).unwrap()));
    let listings = records.iter().filter_map(|record| cakirotu::list(record, cakirotu::blocks(record)).ok());
    listings.map(|listing| cakirotu::write_rows(listing.view()).unwrap()).collect()
}

/// As a spreadsheet saves rows: filled up to the longest, with this quoting and line end.
fn saved(rows: &[u8], quotes: csv::QuoteStyle, end: csv::Terminator) -> Vec<u8> {
    let mut reader = csv::ReaderBuilder::new().has_headers(false).flexible(true).from_reader(rows);
    let table: Vec<csv::ByteRecord> = reader.byte_records().map(Result::unwrap).collect();
    let width = table.iter().map(csv::ByteRecord::len).max().unwrap_or(0);
    let mut out = csv::WriterBuilder::new().quote_style(quotes).terminator(end).from_writer(Vec::new());
    for row in table {
        let filled = row.iter().chain(std::iter::repeat(&b""[..])).take(width);
        out.write_record(filled).unwrap();
    }
    out.into_inner().unwrap()
}

#[test]
fn saved_rows_come_back() {
    for rows in all_rows() {
        for quotes in [csv::QuoteStyle::Always, csv::QuoteStyle::Necessary] {
            for end in [csv::Terminator::Any(b'\n'), csv::Terminator::CRLF] {
                let out = with_input(&["from-sheet", "-"], &saved(&rows, quotes, end));
                assert_eq!(out.status.code(), Some(0), "{}", String::from_utf8_lossy(&out.stderr));
                assert_eq!(out.stdout, rows);
            }
        }
        assert_eq!(with_input(&["from-sheet", "-"], &rows).stdout, rows);
    }
}

/// The rows of the worked example with one text for another: status 1, no rows, the place and the cure.
fn refused(from: &str, to: &str, place: &str, cure: &str) {
    let rows = String::from_utf8(printed(&["rows".as_ref(), record("send").as_os_str()], 0)).unwrap();
    let changed = rows.replacen(from, to, 1);
    assert_ne!(rows, changed);
    let out = with_input(&["from-sheet", "-"], changed.as_bytes());
    let err = String::from_utf8(out.stderr).unwrap();
    assert_eq!((out.status.code(), &out.stdout[..]), (Some(1), &b""[..]), "{err}");
    assert!(err.starts_with(&format!("cakirotu: -: {place}: ")) && err.contains(cure), "{err}");
    assert_eq!(err.lines().count(), 1);
}

#[test]
fn changed_fields_are_refused_with_their_place() {
    refused("0000000000401009", "401009", "line 2, column A", "column A as text");
    refused("0000000000401009", "1E5", "line 2, column A", "column A as text");
    refused("0000000000401009", "1.00E+05", "line 2, column A", "column A as text");
    refused("000000000040101A", "000000000040101a", "line 6, column A", "small letters");
    refused("0000000000401006", "address,indent,place\r\n0000000000401006", "line 1, column A", "no heading");
    refused("0000000000401010,1,0", "0000000000401010,1.0,0", "line 3, column B", "as text");
    refused("0000000000401010,1,0", "0000000000401010,1,", "line 3, column C", "as text");
    refused("1,0,R,\"rbx\"", "1,0,Q,\"rbx\"", "line 1, column D", "X R N K S A P F");
    refused("R,\"rbx\"", "R,\"\"", "line 1, column E", "empty piece");
    refused("N,\"0x3fd\"", "N,\"1.02E+03\"", "line 5, column I", "no number");
    refused("\"\"\"port ", "\"\u{201c}port ", "line 2, column I", "no string");
    refused("0000000000401009", "\r\n0000000000401009", "line 2, column A", "empty");
    refused("P,\";\"\r\n", "P\r\n", "line 1, column K", "empty piece");
    refused("P,\";\"\r\n", "P,\";\",note\r\n", "line 1, column L", "remove columns");
}

#[test]
fn other_separators_and_encodings_are_refused() {
    let rows = printed(&["rows".as_ref(), record("send").as_os_str()], 0);
    let semicolons: Vec<u8> = rows.iter().map(|b| if *b == b',' { b';' } else { *b }).collect();
    let out = with_input(&["from-sheet", "-"], &semicolons);
    assert!(String::from_utf8_lossy(&out.stderr).contains("line 1, column A: fields are not separated by commas"));
    let out = with_input(&["from-sheet", "-"], b"0000000000401006,1,0,S,\"\x85\",P,\";\"\r\n");
    assert!(String::from_utf8_lossy(&out.stderr).contains("line 1, column E: the text is not UTF-8"));
}

#[test]
fn many_faults_are_counted() {
    let rows = String::from_utf8(printed(&["rows".as_ref(), record("send").as_os_str()], 0)).unwrap();
    let out = with_input(&["from-sheet", "-"], rows.replace("0000000000", "").as_bytes());
    let err = String::from_utf8(out.stderr).unwrap();
    assert_eq!((out.status.code(), err.lines().count()), (Some(1), 11));
    assert!(err.ends_with("more fields are refused\n"));
}

#[test]
fn a_table_for_reading_is_no_rows() {
    let table = printed(&["sheet".as_ref(), record("send").as_os_str()], 0);
    let out = with_input(&["from-sheet", "-"], &table);
    assert_eq!(out.status.code(), Some(1));
    assert!(String::from_utf8_lossy(&out.stderr).contains("line 1, column A: `address` is no address: rows have no heading"));
}

#[test]
fn a_missing_file_is_status_2() {
    assert_eq!(command(&["from-sheet", "no such file"]).status.code(), Some(2));
}
