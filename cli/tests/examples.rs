//! Every example through list, rows, keyer and columns: the stored listings and tables, and what the library answers.

mod common;

use std::fs;

use common::{as_programs_print, command, example_files, examples, folder, printed, record, with_input};

fn stem(path: &std::path::Path) -> String {
    path.file_stem().unwrap().to_str().unwrap().to_string()
}

/// 1 for an example whose stored listing is a refusal.
fn status_of(stored: &[u8]) -> i32 {
    i32::from(stored.starts_with(b"no "))
}

#[test]
fn listings_are_the_stored_ones() {
    for stored in example_files("listing") {
        let want = fs::read(&stored).unwrap();
        let out = printed(&["list".as_ref(), record(&stem(&stored)).as_os_str()], status_of(&want));
        assert_eq!(as_programs_print(&out), want, "{}", stored.display());
    }
}

#[test]
fn rows_are_the_librarys_and_come_back_as_the_stored_listing() {
    for stored in example_files("listing") {
        let want = fs::read(&stored).unwrap();
        let path = record(&stem(&stored));
        let out = printed(&["rows".as_ref(), path.as_os_str()], status_of(&want));
        let bytes = fs::read(&path).unwrap();
        match cakirotu::list(&bytes, cakirotu::blocks(&bytes)) {
            Ok(listing) => {
                assert_eq!(out, cakirotu::write_rows(listing.view()).unwrap());
                assert_eq!(cakirotu::read_rows(&out).unwrap(), listing);
            }
            Err(refusal) => assert_eq!(out, format!("{refusal}\n").into_bytes()),
        }
    }
}

#[test]
fn tables_are_the_stored_ones() {
    for stored in example_files("keyer") {
        let text = fs::read_to_string(&stored).unwrap();
        let mut parts = text.splitn(3, '\n');
        let (call, register, want) = (parts.next().unwrap(), parts.next().unwrap(), parts.next().unwrap());
        let name = stem(&stored).split('.').next().unwrap().to_string();
        let path = record(&name);
        let words = ["keyer".as_ref(), call.as_ref(), register.as_ref(), path.as_os_str()];
        // The program reads `no 6` of to_csv as rows and says `no 16`; the command says what the record got.
        if name == "refused" {
            assert_eq!(as_programs_print(&printed(&words, 1)), b"no 6\n");
        } else {
            assert_eq!(String::from_utf8(printed(&words, 0)).unwrap(), want, "{}", stored.display());
        }
    }
}

/// The name that a call line has: `RET = NAME(..);`.
fn callee(line: &str) -> Option<&str> {
    let (_, call) = line.strip_suffix(");")?.split_once(" = ")?;
    let (name, _) = call.split_once('(')?;
    Some(name).filter(|name| !name.is_empty() && name.bytes().all(|b| b.is_ascii_alphanumeric() || b == b'_'))
}

/// A row for each call line of each name, at its address.
#[test]
fn every_call_of_every_example_has_a_row() {
    let mut rows = 0;
    for stored in example_files("listing") {
        let text = fs::read_to_string(&stored).unwrap();
        let calls: Vec<(&str, &str)> = text.lines().filter_map(|line| Some((callee(line)?, &line[..16]))).collect();
        let path = record(&stem(&stored));
        for name in calls.iter().map(|(name, _)| *name).collect::<std::collections::BTreeSet<_>>() {
            let out = printed(&["keyer".as_ref(), name.as_ref(), "rdx".as_ref(), path.as_os_str()], 0);
            let found: Vec<String> = String::from_utf8(out).unwrap().lines().map(|row| row[..16].to_string()).collect();
            let want: Vec<&str> = calls.iter().filter(|(n, _)| *n == name).map(|(_, address)| *address).collect();
            assert_eq!(found, want, "{name} in {}", stored.display());
            rows += want.len();
        }
    }
    assert!(rows > 20, "{rows}");
}

#[test]
fn empty_names_are_refused() {
    let path = record("keyer-commands");
    let out = printed(&["keyer".as_ref(), "".as_ref(), "rdx".as_ref(), path.as_os_str()], 1);
    assert!(out.starts_with(b"no 19: "));
}

#[test]
fn columns_go_and_come_back() {
    for text in example_files("txt") {
        let path = record(&stem(&text));
        let bytes = fs::read(&path).unwrap();
        let stored = printed(&["columns".as_ref(), path.as_os_str()], 0);
        assert_eq!(stored, cakirotu::to_columns(&bytes).unwrap());
        assert_eq!(with_input(&["columns", "--back", "-"], &stored).stdout, bytes);
    }
}

#[test]
fn columns_of_a_folder_go_and_come_back() {
    let (stored, again) = (folder("columns"), folder("columns-back"));
    let out = printed(&["columns".as_ref(), examples().as_os_str(), "-o".as_ref(), stored.as_os_str()], 0);
    assert_eq!(out, b"");
    printed(&["columns".as_ref(), "--back".as_ref(), stored.as_os_str(), "-o".as_ref(), again.as_os_str()], 0);
    for text in example_files("txt") {
        let name = stem(&text) + ".rec";
        assert_eq!(fs::read(again.join(&name)).unwrap(), fs::read(examples().join(&name)).unwrap());
    }
    assert_eq!(command(&["columns".as_ref(), examples().as_os_str()]).status.code(), Some(2));
}

#[test]
fn a_folder_is_its_records_in_order() {
    let mut want = Vec::new();
    for stored in example_files("listing") {
        let path = record(&stem(&stored));
        want.extend(format!("{}:\n", path.display()).into_bytes());
        want.extend(command(&["list".as_ref(), path.as_os_str()]).stdout);
    }
    assert!(printed(&["list".as_ref(), examples().as_os_str()], 1) == want);
    let files: Vec<_> = example_files("listing").iter().map(|stored| record(&stem(stored)).into_os_string()).collect();
    let words: Vec<_> = std::iter::once("list".into()).chain(files).collect();
    assert!(printed(&words, 1) == want);
}

#[test]
fn every_small_routine_is_listed_in_one_process() {
    let made = folder("routines");
    let mut want = Vec::new();
    for number in 0..cakirotu::ROUTINES {
        let path = made.join(format!("{number:03}.rec"));
        fs::write(&path, cakirotu::routine(number).unwrap()).unwrap();
        want.extend(format!("{}:\n", path.display()).into_bytes());
        want.extend(printed(&["list".as_ref(), path.as_os_str()], 0));
    }
    assert!(printed(&["list".as_ref(), made.as_os_str()], 0) == want);
}

#[test]
fn the_table_for_reading_is_even() {
    for stored in example_files("listing") {
        let want = fs::read(&stored).unwrap();
        let out = printed(&["sheet".as_ref(), record(&stem(&stored)).as_os_str()], status_of(&want));
        if status_of(&want) == 1 {
            assert_eq!(as_programs_print(&out), want);
            continue;
        }
        // The reader refuses rows of another width than the heading's.
        let mut table = csv::Reader::from_reader(&out[..]);
        assert_eq!(
            table.byte_headers().unwrap().iter().take(6).collect::<Vec<_>>(),
            ["address", "place", "indent", "kind", "callee", "text"].map(str::as_bytes)
        );
        let mut page = format!("lines={}\n", String::from_utf8_lossy(&want).lines().count() - 1).into_bytes();
        for row in table.byte_records() {
            let row = row.unwrap();
            let address = if row[0].is_empty() { "-".repeat(16).into_bytes() } else { row[0].to_vec() };
            let indent: usize = std::str::from_utf8(&row[2]).unwrap().parse().unwrap();
            page.extend([&address[..], b" ", &b"  ".repeat(indent), &row[5], b"\n"].concat());
            let pieces: Vec<u8> = row.iter().skip(7).step_by(2).flatten().copied().collect();
            assert_eq!(pieces, row[5]);
        }
        assert_eq!(page, want);
    }
}

#[test]
fn calls_are_filtered_by_callee() {
    let out = printed(&["sheet".as_ref(), record("send").as_os_str()], 0);
    let rows: Vec<csv::StringRecord> = csv::Reader::from_reader(&out[..]).into_records().map(Result::unwrap).collect();
    let kinds: Vec<&str> = rows.iter().map(|row| &row[3]).collect();
    let callees: Vec<&str> = rows.iter().filter(|row| &row[3] == "call").map(|row| &row[4]).collect();
    assert_eq!(callees, ["LogLine", "SendBytes"]);
    for kind in ["set", "do", "asm", "branch", "while", "if", "end", "label", "goto", "return"] {
        assert!(kinds.contains(&kind), "{kind}");
    }
}
