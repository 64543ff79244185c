//! A driver file through every subcommand: `examples/driver/sender.sys`, which is built here from its bytes.

mod common;
#[allow(dead_code)]
#[path = "../src/recorder/tests/file.rs"]
mod file;
#[path = "common/sender.rs"]
mod sender;

use std::fs;

use common::{command, folder, printed, root, with_input};

const DRIVER: &str = "examples/driver/sender.sys";
const SEND: &str = "SendCommand";

/// What is stored beside the driver, made by the command with the driver's path as in DRIVER.
fn stored(extension: &str) -> Vec<u8> {
    fs::read(root().join(DRIVER).with_extension(extension)).unwrap()
}

#[test]
fn the_driver_is_the_one_built_here() {
    assert!(stored("sys") == sender::sender());
}

#[test]
fn its_listing_is_the_stored_one() {
    assert_eq!(String::from_utf8(printed(&["list", DRIVER], 0)), String::from_utf8(stored("listing")));
}

/// The listing of a routine by its name, by its address, and by standard input.
#[test]
fn a_routine_is_listed() {
    let by_name = printed(&["list", DRIVER, "--routine", SEND], 0);
    assert_eq!(printed(&["list", DRIVER, "--routine", "140001040"], 0), by_name);
    assert_eq!(with_input(&["list", "-", "--routine", SEND], &stored("sys")).stdout, by_name);
    let whole = stored("listing");
    assert!(whole.ends_with(&by_name), "{}", String::from_utf8_lossy(&by_name));
    assert_eq!(command(&["list", DRIVER, "--routine", "Receive"]).status.code(), Some(2));
}

#[test]
fn its_commands_are_the_stored_table() {
    let table = printed(&["keyer", "RigWrite", "rdx", DRIVER, "--routine", SEND], 0);
    assert_eq!(String::from_utf8(table), String::from_utf8(stored("keyer")));
}

/// Routines without a row are left out; that there is no row has its reason.
#[test]
fn of_all_routines_those_with_commands_have_a_table() {
    let table = printed(&["keyer", "RigWrite", "rdx", DRIVER], 0);
    assert_eq!(table, [format!("{DRIVER} 140001040 {SEND}:\n").as_bytes(), &stored("keyer")].concat());
    let out = command(&["keyer", "rigwrite", "rdx", DRIVER]);
    assert_eq!((out.status.code(), &out.stdout[..]), (Some(0), &b""[..]));
    assert_eq!(String::from_utf8_lossy(&out.stderr), "cakirotu: no line that was listed calls rigwrite\n");
}

#[test]
fn its_records_are_what_is_listed() {
    let made = folder("sender");
    let made_name = made.to_str().unwrap();
    assert_eq!(printed(&["record", DRIVER, "-o", made_name], 0), b"2 routines, 2 listed\n");
    assert_eq!(String::from_utf8(fs::read(made.join("index.csv")).unwrap()), String::from_utf8(stored("index.csv")));
    for (record, routine) in [("0000000140001000.rec", "140001000"), ("0000000140001040.rec", SEND)] {
        let path = made.join(record);
        let path = path.to_str().unwrap();
        for what in ["list", "rows", "sheet", "columns"] {
            assert_eq!(printed(&[what, path], 0), printed(&[what, DRIVER, "--routine", routine], 0), "{what} {record}");
        }
        let rows = printed(&["rows", path], 0);
        assert_eq!(with_input(&["from-sheet", "-"], &rows).stdout, rows);
        let columns = printed(&["columns", path], 0);
        assert_eq!(with_input(&["columns", "--back", "-"], &columns).stdout, fs::read(path).unwrap());
    }
}
