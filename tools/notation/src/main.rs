//! The command line of tools/record.

use std::io::{Read, Write};
use std::process::ExitCode;

use notation::record::Record;
use notation::{assemble, dump, questions};

const USAGE: &str = "usage: tools/record assemble FILE.txt > FILE.rec
       tools/record dump FILE.rec > FILE.txt
FILE may be - for standard input";

fn main() -> ExitCode {
    let words: Vec<String> = std::env::args().skip(1).collect();
    let words: Vec<&str> = words.iter().map(|w| w.as_str()).collect();
    let made = match words[..] {
        ["assemble", file] => read(file).and_then(|text| assembled(file, &text)),
        ["dump", file] => read(file).and_then(|bytes| dumped(file, &bytes)),
        _ => {
            eprintln!("{USAGE}");
            return ExitCode::from(2);
        }
    };
    let done = made.and_then(|bytes| std::io::stdout().write_all(&bytes).map_err(|e| format!("standard output: {e}")));
    match done {
        Ok(()) => ExitCode::SUCCESS,
        Err(why) => {
            eprintln!("{why}");
            ExitCode::FAILURE
        }
    }
}

fn read(file: &str) -> Result<Vec<u8>, String> {
    let mut bytes = Vec::new();
    let read = match file {
        "-" => std::io::stdin().read_to_end(&mut bytes),
        _ => std::fs::File::open(file).and_then(|mut f| f.read_to_end(&mut bytes)),
    };
    read.map(|_| bytes).map_err(|e| format!("{file}: {e}"))
}

fn assembled(file: &str, text: &[u8]) -> Result<Vec<u8>, String> {
    let record = assemble(text).map_err(|e| format!("{file}:{}: {}", e.line, e.what))?;
    let bytes = record.to_bytes();
    tell_refusal(file, &record, &bytes);
    Ok(bytes)
}

fn dumped(file: &str, bytes: &[u8]) -> Result<Vec<u8>, String> {
    let text = dump(bytes).map_err(|why| format!("{file}: {why}"))?;
    tell_refusal(file, &Record::parse(bytes), bytes);
    Ok(text.into_bytes())
}

/// A record that no listing accepts can be written and read all the same.
fn tell_refusal(file: &str, record: &Record, bytes: &[u8]) {
    match questions::first_no(bytes, 0, record.blocks.len()) {
        0 => {}
        n => eprintln!("{file}: note: the listing will be `no {n}` (docs/READING.md says why)"),
    }
}
