//! Lists a record file as the program `listing` does: list FILE [FROM TO]
//! Prints its rows for a spreadsheet: list rows FILE; lists a file of rows: list back FILE
//! Prints how much looking its listing takes, with its blocks and edges: list looks FILE
//! Prints whether its listing may be followed, or which assumption is broken first: list check FILE
//! Exit status: 0 done, 1 refused, 2 nothing could be read or printed.

use std::fs::File;
use std::io::{self, Read, Write};
use std::process::ExitCode;

use cakirotu::{Blocks, Refusal, View};

/// One byte more than a record may have: a longer file is refused by its first bytes.
const MOST: u64 = 65_537;

/// One byte more than the program `from_csv` takes. The library has no such limit.
const MOST_ROWS: u64 = 262_145;

fn main() -> ExitCode {
    let words: Vec<String> = std::env::args().skip(1).collect();
    match run(&words) {
        Ok(true) => ExitCode::SUCCESS,
        Ok(false) => ExitCode::from(1),
        Err(why) => {
            eprintln!("list: {why}");
            ExitCode::from(2)
        }
    }
}

fn run(words: &[String]) -> Result<bool, String> {
    let words: Vec<&str> = words.iter().map(String::as_str).collect();
    let mut printed = Vec::new();
    let done = match words[..] {
        ["rows", file] => rows(&read(file, MOST)?, &mut printed),
        ["back", file] => back(&read(file, MOST_ROWS)?, &mut printed),
        ["looks", file] => looks(&read(file, MOST)?, &mut printed),
        ["check", file] => check(&read(file, MOST)?, &mut printed),
        [file] => list(&read(file, MOST)?, None, &mut printed),
        [file, from, to] => list(&read(file, MOST)?, Some(Blocks { from: number(from)?, to: number(to)? }), &mut printed),
        _ => return Err("usage: list FILE [FROM TO], list rows|back|looks|check FILE".to_string()),
    };
    let refused = done.map_or_else(|refusal| format!("no {}\n", refusal.number()), |()| String::new());
    printed.extend(refused.as_bytes());
    io::stdout().write_all(&printed).map_err(|e| format!("standard output: {e}"))?;
    Ok(refused.is_empty())
}

fn number(word: &str) -> Result<usize, String> {
    word.parse().map_err(|e| format!("{word}: {e}"))
}

fn read(file: &str, most: u64) -> Result<Vec<u8>, String> {
    let mut bytes = Vec::new();
    File::open(file).and_then(|f| f.take(most).read_to_end(&mut bytes)).map_err(|e| format!("{file}: {e}"))?;
    Ok(bytes)
}

fn list(record: &[u8], range: Option<Blocks>, out: &mut Vec<u8>) -> Result<(), Refusal> {
    let listing = cakirotu::list(record, range.unwrap_or_else(|| cakirotu::blocks(record)))?;
    print(out, listing.view());
    Ok(())
}

fn rows(record: &[u8], out: &mut Vec<u8>) -> Result<(), Refusal> {
    let listing = cakirotu::list(record, cakirotu::blocks(record))?;
    out.extend(cakirotu::write_rows(listing.view())?);
    Ok(())
}

fn back(rows: &[u8], out: &mut Vec<u8>) -> Result<(), Refusal> {
    print(out, cakirotu::read_rows(rows)?.view());
    Ok(())
}

fn looks(record: &[u8], out: &mut Vec<u8>) -> Result<(), Refusal> {
    let blocks = cakirotu::blocks(record);
    let looks = cakirotu::size(record, blocks)?.looks;
    let edges = u16::from_le_bytes([record[8], record[9]]);
    out.extend(format!("looks={looks} blocks={} edges={edges}\n", blocks.to).as_bytes());
    Ok(())
}

fn check(record: &[u8], out: &mut Vec<u8>) -> Result<(), Refusal> {
    let said = cakirotu::check(record)?.map_or("follows".to_string(), |broken| broken.to_string());
    out.extend(format!("{said}\n").as_bytes());
    Ok(())
}

fn print(out: &mut Vec<u8>, view: View<'_>) {
    out.extend(format!("lines={}\n", view.lines().len()).as_bytes());
    for line in view.lines() {
        let address = line.address.map_or("-".repeat(16), |address| format!("{address:016X}"));
        out.extend(format!("{address} {:1$}", "", 2 * usize::from(line.indent)).as_bytes());
        out.extend(line.text());
        out.push(b'\n');
    }
}
