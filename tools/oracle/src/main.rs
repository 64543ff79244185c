//! The command line.

use std::io::{Read, Write};
use std::process::ExitCode;

use oracle::rows::{self, programs};
use oracle::tables;
use oracle::{columns, compare, listing, questions, record, replay, routines};

const USAGE: &str = "usage: oracle list FILE [FROM TO]     the Rust's listing of a record (- for standard input)
       oracle to-csv FILE            the rows of that listing, as the program to_csv prints them
       oracle from-csv FILE          the listing of rows, as the program from_csv prints it
       oracle rows-file SEED         a generated file of rows, to standard output
       oracle rows-fields SEED       its fields, in hexadecimal
       oracle keyer FILE             the command table of names and rows, as the program keyer prints it
       oracle keyer-input SEED       a generated input of that program, to standard output
       oracle to-columns FILE        a record by columns, as the program to_columns prints it
       oracle from-columns FILE      the way back, as the program from_columns prints it
       oracle columns-input SEED     a generated input of these programs, to standard output
       oracle columns-folder SET FOLDER  records as they are and by columns, for compressors
       oracle routine FILE           a small routine by its number, as the program routine prints it
       oracle routines-folder FOLDER  all small routines with their listings and rows
       oracle routines-table         what they list as, the table of docs/ROUTINES.md
       oracle example                the record of document 01's example, to standard output
       oracle questions SEED COUNT   compare the port's questions of a record and a range
       oracle pieces SEED COUNT      compare the port's operands, memory operands and conditions with the Rust's
       oracle lines SEED COUNT       compare the port's instruction lines with the Rust's
       oracle listing SEED COUNT     compare the port's listings with the Rust's
       oracle rows SEED COUNT        compare the port's rows, written and read, with the second implementation's
       oracle literals SEED COUNT    compare the strings that the port reads out of literals with the second implementation's
       oracle tables SEED COUNT      compare the port's command tables with the second implementation's
       oracle routes SEED COUNT      compare the listing's route with the processor's, and the port's check of a record with the second one
       oracle columns SEED COUNT     compare the port's records by columns and back with the second implementation's
       oracle routines SEED COUNT    compare the port's small routines with the second implementation's
       oracle sanity SEED COUNT      generated records against the questions, the Rust and demand 3
       oracle bench [SET rust|port]  the port's speed against the Rust's; one listing each of a set's records
       oracle bench-rows FOLDER      the port's speed with rows and tables, and the files into a folder
       oracle bench-rows SET WAY     one call for each listing of a set, to write, to read or to make a table
       oracle bench-columns          the port's speed with records by columns, and that of a copy
       oracle bench-columns SET WAY  one call for each record of a set
       oracle record SEED            a generated record, to standard output
       oracle replay COUNT SEED      calls with their answers for the replay program, to standard output";

fn main() -> ExitCode {
    listing::report_panics_as_answers();
    let words: Vec<String> = std::env::args().skip(1).collect();
    let words: Vec<&str> = words.iter().map(|w| w.as_str()).collect();
    let done = match words[..] {
        ["list", file] => list(file, None),
        ["list", file, from, to] => number(from).and_then(|f| number(to).and_then(|t| list(file, Some((f, t))))),
        ["to-csv", file] => read(file).and_then(|bytes| write(&programs::to_csv(&bytes)?)),
        ["from-csv", file] => read(file).and_then(|bytes| write(&programs::from_csv(&bytes))),
        ["rows-file", seed] => number(seed).and_then(|s| write(&rows::file(&rows::any::many(s as u64)))),
        ["rows-fields", seed] => number(seed).and_then(|s| write(programs::fields(&rows::any::many(s as u64)).as_bytes())),
        ["keyer", file] => read(file).and_then(|bytes| write(&tables::programs::keyer(&bytes))),
        ["keyer-input", seed] => number(seed).and_then(|s| write(&tables::programs::input(s as u64)?)),
        ["to-columns", file] => read(file).and_then(|bytes| write(&columns::programs::to_columns(&bytes))),
        ["from-columns", file] => read(file).and_then(|bytes| write(&columns::programs::from_columns(&bytes))),
        ["columns-input", seed] => number(seed).and_then(|s| write(&columns::any::input(s))),
        ["columns-folder", set, folder] => columns::folder::keep(set, folder),
        ["routine", file] => read(file).and_then(|bytes| write(&routines::programs::routine(&bytes))),
        ["routines-folder", folder] => routines::programs::keep(folder),
        ["routines-table"] => routines::table::table().and_then(|table| write(table.as_bytes())),
        ["example"] => write(&record::example().to_bytes()),
        ["record", seed] => number(seed).and_then(|s| write(&compare::record(s as u64))),
        ["replay", count, seed] => number(count).and_then(|n| number(seed).and_then(|s| write(&replay::corpus(n, s as u64)?))),
        #[cfg(mutants)]
        ["witnesses", count] => number(count).and_then(witnesses),
        #[cfg(feature = "abi")]
        ["bench"] => oracle::bench::run(),
        #[cfg(feature = "abi")]
        ["bench-rows", folder] => oracle::bench::rows::run(folder),
        #[cfg(feature = "abi")]
        ["bench-rows", set, way] => oracle::bench::rows::once(set, way),
        #[cfg(feature = "abi")]
        ["bench-columns"] => oracle::bench::columns::run(),
        #[cfg(feature = "abi")]
        ["bench-columns", set, way] => oracle::bench::columns::once(set, way),
        #[cfg(feature = "abi")]
        ["bench", set, "rust"] => oracle::bench::once(set, true),
        #[cfg(feature = "abi")]
        ["bench", set, "port"] => oracle::bench::once(set, false),
        [what, seed, count] => compare(what, seed, count),
        _ => Err(USAGE.to_string()),
    };
    match done {
        Ok(true) => ExitCode::SUCCESS,
        Ok(false) => ExitCode::FAILURE,
        Err(why) => {
            eprintln!("{why}");
            ExitCode::from(2)
        }
    }
}

fn number(word: &str) -> Result<usize, String> {
    word.parse().map_err(|_| format!("{word} is not a number"))
}

fn compare(what: &str, seed: &str, count: &str) -> Result<bool, String> {
    let run = comparison(what).ok_or_else(|| USAGE.to_string())?;
    run(number(seed)? as u64, number(count)?)
}

/// The seeds for `src/replay/witnesses.txt`.
#[cfg(mutants)]
fn witnesses(count: usize) -> Result<bool, String> {
    let seeds: Vec<String> = oracle::mutants::witnesses(count)?.iter().map(|s| s.to_string()).collect();
    write(format!("{}\n", seeds.join("\n")).as_bytes())
}

fn comparison(what: &str) -> Option<compare::Comparison> {
    #[cfg(mutants)]
    if what == "mutants" {
        return Some(oracle::mutants::mutants);
    }
    compare::COMPARISONS.iter().find(|(name, _)| *name == what).map(|(_, run)| *run)
}

fn write(bytes: &[u8]) -> Result<bool, String> {
    std::io::stdout().write_all(bytes).map_err(|e| e.to_string())?;
    Ok(true)
}

fn read(file: &str) -> Result<Vec<u8>, String> {
    let mut bytes = Vec::new();
    let read = match file {
        "-" => std::io::stdin().read_to_end(&mut bytes),
        _ => std::fs::File::open(file).and_then(|mut f| f.read_to_end(&mut bytes)),
    };
    read.map_err(|e| format!("{file}: {e}"))?;
    Ok(bytes)
}

/// What the program `listing` prints, or the lines of a range.
fn list(file: &str, range: Option<(usize, usize)>) -> Result<bool, String> {
    let bytes = read(file)?;
    let printed = match range {
        None => listing::program(&bytes),
        Some((from, to)) => match questions::first_no(&bytes, from, to) {
            0 => listing::list(&bytes, from, to).map(|l| l.print()),
            n => Ok(listing::refusal(n)),
        },
    };
    write(&printed.map_err(|e| format!("the Rust panics: {e}"))?)
}
