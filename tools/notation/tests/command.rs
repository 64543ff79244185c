//! The program: what it prints, where, and how it ends.

use std::io::Write;
use std::process::{Command, Output, Stdio};

const TEXT: &str = "bits 64\nconvention systemv\nindent 1\n\nblock 1000\n  1000: ret\n";

fn run(words: &[&str], input: &[u8]) -> Output {
    let mut child = Command::new(env!("CARGO_BIN_EXE_record"))
        .args(words)
        .stdin(Stdio::piped())
        .stdout(Stdio::piped())
        .stderr(Stdio::piped())
        .spawn()
        .unwrap();
    child.stdin.take().unwrap().write_all(input).unwrap();
    child.wait_with_output().unwrap()
}

fn told(output: &Output) -> &str {
    std::str::from_utf8(&output.stderr).unwrap()
}

#[test]
fn both_ways() {
    let record = run(&["assemble", "-"], TEXT.as_bytes());
    assert_eq!((record.status.code(), record.stdout.len(), told(&record)), (Some(0), 136, ""));
    let text = run(&["dump", "-"], &record.stdout);
    assert_eq!((text.status.code(), &text.stdout[..], told(&text)), (Some(0), TEXT.as_bytes(), ""));
}

#[test]
fn a_refused_record() {
    let record = run(&["assemble", "-"], TEXT.replace("64", "48").as_bytes());
    let note = "-: note: the listing will be `no 2` (docs/READING.md says why)\n";
    assert_eq!((record.status.code(), record.stdout.len(), told(&record)), (Some(0), 136, note));
    let text = run(&["dump", "-"], &record.stdout);
    assert_eq!((text.status.code(), told(&text)), (Some(0), note));
}

/// A branch without its edge is no error of the text; the note says what a listing answers.
#[test]
fn a_contradicting_edge() {
    let note = "-: note: the listing will be `no 15` (docs/READING.md says why)\n";
    let branch = TEXT.replace("ret", "jne 1000");
    let right = run(&["assemble", "-"], (branch.clone() + "  edge true 1000\n").as_bytes());
    assert_eq!((right.status.code(), told(&right)), (Some(0), ""));
    for edge in ["", "  edge true 1010\n", "  edge true 1000\n  edge true 1000\n"] {
        let record = run(&["assemble", "-"], (branch.clone() + edge).as_bytes());
        assert_eq!((record.status.code(), told(&record)), (Some(0), note));
        let text = run(&["dump", "-"], &record.stdout);
        assert_eq!((text.status.code(), told(&text)), (Some(0), note));
    }
}

/// Nothing on standard output, and the file with the line.
#[test]
fn failures() {
    let bad = run(&["assemble", "-"], TEXT.replace("ret", "mov eax, 10").as_bytes());
    assert_eq!((bad.status.code(), bad.stdout.len()), (Some(1), 0));
    assert_eq!(told(&bad), "-:6: is `10` decimal or hexadecimal? Write 0x and hexadecimal digits\n");
    let short = run(&["dump", "-"], b"");
    assert_eq!((short.status.code(), short.stdout.len()), (Some(1), 0));
    assert_eq!(told(&short), "-: 0 bytes, where a header alone has 24\n");
    let missing = run(&["dump", "no/such/file"], b"");
    assert_eq!(missing.status.code(), Some(1));
    assert!(told(&missing).starts_with("no/such/file: "));
    for words in [&[][..], &["dump"], &["list", "-"], &["dump", "-", "-"]] {
        let usage = run(words, b"");
        assert_eq!((usage.status.code(), usage.stdout.len()), (Some(2), 0));
        assert!(told(&usage).starts_with("usage: tools/record assemble FILE.txt > FILE.rec\n"));
    }
}
