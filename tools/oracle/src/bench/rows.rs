//! The port's speed with rows, both ways, and with command tables, in bytes of the file of rows.

use std::hint::black_box;
use std::path::Path;
use std::time::{Duration, Instant};

use super::{room, sets};
use crate::lists::Lists;
use crate::record::Record;
use crate::rows::{any, file, held, lists_of};
use crate::{lists, port};

/// Listings of one kind, each with its lists, sizes and rows.
struct Set {
    name: &'static str,
    listings: Vec<(Lists, [usize; 3], Vec<u8>)>,
}

/// How long a call for every listing of a set takes.
type Calls = fn(&Set) -> Duration;

const WAYS: [(&str, Calls); 3] = [("write", write), ("read", read), ("table", table)];

/// Prints for each way and set `port WAY SET MB/s`, and keeps the files in a folder for others to read and write.
pub fn run(folder: &str) -> Result<bool, String> {
    let sets = listings()?;
    for set in &sets {
        keep(set, folder).map_err(|e| format!("{folder}: {e}"))?;
    }
    for (way, calls) in WAYS {
        for set in &sets {
            println!("port {way} {} {:.1}", set.name, bytes(set) as f64 / least(set, calls).as_nanos() as f64 * 1000.0);
        }
    }
    Ok(true)
}

/// The best of many turns, each short, as those that it is compared with are measured.
fn least(set: &Set, calls: Calls) -> Duration {
    let began = Instant::now();
    let mut least = Duration::MAX;
    while began.elapsed() < Duration::from_secs(1) {
        least = least.min(calls(set));
    }
    least
}

/// One call for every listing of a set: for counters of instructions.
pub fn once(name: &str, way: &str) -> Result<bool, String> {
    let sets = listings()?;
    let set = sets.iter().find(|s| s.name == name).ok_or("no such set: straight, flow or any")?;
    let (_, calls) = WAYS.iter().find(|(w, _)| *w == way).ok_or("neither write, read nor table")?;
    calls(set);
    println!("bytes {}", bytes(set));
    Ok(true)
}

/// The listings of the sets `straight` and `flow`, and lines of any tokens.
fn listings() -> Result<[Set; 3], String> {
    let [straight, flow, _] = sets();
    let listed = |name: &'static str, records: &[Record]| {
        let listings: Result<Vec<_>, String> = records.iter().map(|record| with_rows(listed(record))).collect();
        listings.map(|listings| Set { name, listings })
    };
    let of_any: Result<Vec<_>, String> = (1..=24).map(|seed| with_rows(lists_of(&any::many(seed)))).collect();
    Ok([listed("straight", &straight.records)?, listed("flow", &flow.records)?, Set { name: "any", listings: of_any? }])
}

fn listed(record: &Record) -> (Lists, [usize; 3]) {
    let (answer, left) = port::list(&record.to_bytes(), 0, record.blocks.len(), room(1 << 14));
    (left.cut(lists::fitting(answer.sizes)), answer.sizes)
}

/// The rows are the second implementation's, so that only what is measured calls the port.
fn with_rows((lists, sizes): (Lists, [usize; 3])) -> Result<(Lists, [usize; 3], Vec<u8>), String> {
    let rows = file(&held(&lists, sizes).ok_or("a listing of the benchmark holds no rows")?);
    Ok((lists, sizes, rows))
}

fn bytes(set: &Set) -> usize {
    set.listings.iter().map(|(_, _, rows)| rows.len()).sum()
}

fn keep(set: &Set, folder: &str) -> std::io::Result<()> {
    std::fs::create_dir_all(folder)?;
    for (n, (_, _, rows)) in set.listings.iter().enumerate() {
        std::fs::write(Path::new(folder).join(format!("{}-{n}.csv", set.name)), rows)?;
    }
    Ok(())
}

fn write(set: &Set) -> Duration {
    let mut out = vec![1; 1 << 17];
    let began = Instant::now();
    for (lists, [text, tokens, lines], _) in &set.listings {
        let sizes = cakirotu::Sizes { text: *text, tokens: *tokens, lines: *lines };
        let size = cakirotu::write_rows_into(black_box(&port::held(lists)), sizes, &mut out);
        black_box(size.expect("rows of the benchmark are written"));
    }
    began.elapsed()
}

fn read(set: &Set) -> Duration {
    let mut lists = Lists::lent(lists::fitting([1 << 16, 1 << 14, 900]));
    let mut lent = port::slices(&mut lists);
    let began = Instant::now();
    for (_, _, rows) in &set.listings {
        let sizes = cakirotu::read_rows_into(black_box(rows), &mut lent);
        black_box(sizes.expect("rows of the benchmark are read"));
    }
    began.elapsed()
}

/// The table of each listing, for a call and a register that many of its lines have.
fn table(set: &Set) -> Duration {
    let (mut bytes, mut rows, mut addresses) = (vec![1; 80 << 10], vec![1; 1 << 10], vec![1; 1 << 10]);
    let names = cakirotu::Names { call: b"sub_401000", register: b"rcx" };
    let began = Instant::now();
    for (lists, [text, tokens, lines], _) in &set.listings {
        let sizes = cakirotu::Sizes { text: *text, tokens: *tokens, lines: *lines };
        let mut lent = cakirotu::TableLists { bytes: &mut bytes, rows: &mut rows, addresses: &mut addresses };
        let made = cakirotu::command_table_into(black_box(&port::held(lists)), sizes, names, &mut lent);
        black_box(made.expect("tables of the benchmark are made"));
    }
    began.elapsed()
}
