//! Refusals, what cannot be read, standard input, help.

mod common;

use std::fs;

use common::{command, folder, printed, record, root, with_input};

#[test]
fn a_refusal_has_its_question_and_status_1() {
    let out = printed(&["list".as_ref(), record("refused").as_os_str()], 1);
    assert_eq!(out, b"no 6: Do all blocks start at different addresses?\n");
    let out = with_input(&["list", "-"], b"");
    assert_eq!((out.status.code(), &out.stdout[..]), (Some(1), &b"no 1: Are there at least 24 bytes?\n"[..]));
}

#[test]
fn a_missing_file_is_status_2_and_the_others_are_listed() {
    let out = command(&["list", "no such file"]);
    assert_eq!((out.status.code(), &out.stdout[..]), (Some(2), &b""[..]));
    assert!(String::from_utf8_lossy(&out.stderr).starts_with("cakirotu: no such file: "));
    let out = command(&["list".as_ref(), "no such file".as_ref(), record("refused").as_os_str(), record("worked").as_os_str()]);
    assert_eq!(out.status.code(), Some(2));
    let text = String::from_utf8(out.stdout).unwrap();
    assert!(text.contains("refused.rec:\nno 6: ") && text.contains("worked.rec:\nlines=5\n"), "{text}");
}

#[test]
fn standard_input_is_a_file() {
    let path = record("worked");
    let want = printed(&["list".as_ref(), path.as_os_str()], 0);
    assert_eq!(with_input(&["list", "-"], &fs::read(&path).unwrap()).stdout, want);
    let both = with_input(&["list".as_ref(), path.as_os_str(), "-".as_ref()], &fs::read(&path).unwrap()).stdout;
    let names = [format!("{}:\n", path.display()).into_bytes(), b"-:\n".to_vec()];
    assert_eq!(both, [&names[0][..], &want, &names[1], &want].concat());
}

#[test]
fn an_empty_folder_cannot_be_listed() {
    let out = command(&["list".as_ref(), folder("empty").as_os_str()]);
    assert_eq!(out.status.code(), Some(2));
    assert!(String::from_utf8_lossy(&out.stderr).contains("there is no *.rec"));
}

#[test]
fn a_long_file_is_refused_by_its_first_bytes() {
    let mut long = fs::read(record("worked")).unwrap();
    long.resize(1 << 20, 0);
    assert!(with_input(&["list", "-"], &long).stdout.starts_with(b"no 4: "));
}

#[test]
fn a_file_that_only_begins_as_a_driver_cannot_be_read() {
    for command in [&["list", "-"][..], &["rows", "-"], &["keyer", "a", "b", "-"], &["columns", "-"], &["sheet", "-"]] {
        let out = with_input(command, b"MZ and nothing else");
        assert_eq!((out.status.code(), &out.stdout[..]), (Some(2), &b""[..]), "{command:?}");
        assert!(out.stderr.starts_with(b"cakirotu: -: "));
    }
    let made = folder("no-driver");
    let out = with_input(&["record".as_ref(), "-".as_ref(), "-o".as_ref(), made.as_os_str()], b"MZ");
    assert_eq!(out.status.code(), Some(2));
}

#[test]
fn a_routine_is_picked_from_drivers_alone() {
    let out = command(&["list".as_ref(), "--routine".as_ref(), "1000".as_ref(), record("worked").as_os_str()]);
    assert_eq!(out.status.code(), Some(2));
    assert!(String::from_utf8_lossy(&out.stderr).contains("--routine"));
}

#[test]
fn numbers_are_explained() {
    assert!(printed(&["explain", "6"], 0).starts_with(b"no 6: Do all blocks start at different addresses?\n"));
    let all = String::from_utf8(printed(&["explain"], 0)).unwrap();
    assert_eq!(all.lines().filter(|line| line.starts_with("no ")).count(), 19);
    assert_eq!(command(&["explain", "20"]).status.code(), Some(2));
}

#[test]
fn help_and_version_are_there() {
    let help = String::from_utf8(printed(&["--help"], 0)).unwrap();
    for word in ["list", "rows", "keyer", "columns", "explain", "record", "from-sheet", "sheet", "completions", "Exit status"] {
        assert!(help.contains(word), "{word}");
    }
    assert_eq!(command(&["no-such-command"]).status.code(), Some(2));
}

#[test]
fn the_version_is_the_librarys() {
    let manifest = fs::read_to_string(root().join("bindings/rust/Cargo.toml")).unwrap();
    let version = manifest.lines().find_map(|line| line.strip_prefix("version = \"")?.strip_suffix('"')).unwrap();
    assert_eq!(printed(&["--version"], 0), format!("cakirotu {version}\n").as_bytes());
}

#[test]
fn completions_have_every_command() {
    for shell in ["bash", "zsh", "fish"] {
        let script = String::from_utf8(printed(&["completions", shell], 0)).unwrap();
        for word in ["list", "rows", "keyer", "columns", "explain", "record", "from-sheet", "sheet", "completions", "routine"] {
            assert!(script.contains(word), "{shell}: {word}");
        }
    }
    assert_eq!(command(&["completions", "no-such-shell"]).status.code(), Some(2));
}
