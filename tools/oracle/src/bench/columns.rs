//! The port's speed with records by columns, in both directions, beside that of a copy of the same bytes, in one run.

use std::hint::black_box;
use std::time::{Duration, Instant};

use crate::gen;
use crate::rng::Rng;

/// Records one after another in one list, with their lengths.
struct Set {
    name: &'static str,
    bytes: Vec<u8>,
    lengths: Vec<usize>,
}

/// How many bytes a folder has: more than any cache, on both sides.
const FOLDER: usize = 256 << 20;

/// How many different records a folder has; they stand there again and again.
const DIFFERENT: usize = 2000;

/// One record into a list that has room for it.
type Store = fn(&[u8], &mut [u8]);

const WAYS: [(&str, Store); 3] = [("copy", copy), ("to", to), ("from", from)];

fn copy(record: &[u8], out: &mut [u8]) {
    out[..record.len()].copy_from_slice(record);
}

fn to(record: &[u8], out: &mut [u8]) {
    cakirotu::to_columns_into(record, out).expect("a record of the benchmark is stored");
}

fn from(record: &[u8], out: &mut [u8]) {
    cakirotu::from_columns_into(record, out).expect("a record of the benchmark comes back");
}

/// Prints for each set its records and bytes, and for each way `WAY SET GB/s`, with the share of the copy's speed.
pub fn run() -> Result<bool, String> {
    for set in [of_instructions("500", 500), of_instructions("40", 40), of_instructions("4", 4), folder()] {
        println!("{}: {} records, {} bytes", set.name, set.lengths.len(), set.bytes.len());
        let mut out = vec![1; set.bytes.len()];
        let mut least = [Duration::MAX; WAYS.len()];
        // The ways take turns, so that what disturbs the machine disturbs all.
        for _ in 0..10 {
            for (least, (_, store)) in least.iter_mut().zip(WAYS) {
                *least = (*least).min(best(&set, store, &mut out));
            }
        }
        let speeds = least.map(|time| set.bytes.len() as f64 / time.as_secs_f64() / 1e9);
        for ((way, _), speed) in WAYS.iter().zip(speeds) {
            println!("{way} {} {speed:.2} ({:.0} % of the copy)", set.name, 100.0 * speed / speeds[0]);
        }
    }
    Ok(true)
}

/// The best of several passes over a set; of a long one a single pass.
fn best(set: &Set, store: Store, out: &mut [u8]) -> Duration {
    let times = ((1 << 20) / set.bytes.len()).max(1);
    let began = Instant::now();
    let mut least = Duration::MAX;
    while least == Duration::MAX || began.elapsed() < Duration::from_millis(50) {
        least = least.min(passes(set, store, out, times));
    }
    least
}

/// How long a pass takes, of so many.
fn passes(set: &Set, store: Store, out: &mut [u8], times: usize) -> Duration {
    let began = Instant::now();
    for _ in 0..times {
        let mut at = 0;
        for length in &set.lengths {
            store(black_box(&set.bytes[at..at + length]), black_box(&mut out[at..at + length]));
            at += length;
        }
    }
    began.elapsed() / times as u32
}

/// One pass over a set: for counters of instructions.
pub fn once(name: &str, way: &str) -> Result<bool, String> {
    let (_, store) = WAYS.iter().find(|(w, _)| *w == way).ok_or("neither copy, to nor from")?;
    let count = name.parse().map_err(|_| "no such set: a number of instructions")?;
    let set = of_instructions("", count);
    passes(&set, *store, &mut vec![1; set.bytes.len()], 1);
    println!("bytes {}", set.bytes.len());
    Ok(true)
}

/// A record of so many instructions.
fn of_instructions(name: &'static str, count: usize) -> Set {
    let rng = &mut Rng::new(1);
    let mut record = gen::one_block(rng);
    record.blocks[0].insns.truncate(1);
    gen::fill_to(rng, &mut record, count, 0);
    let bytes = record.to_bytes();
    Set { name, lengths: vec![bytes.len()], bytes }
}

/// Routines of about 40 blocks and 200 instructions.
fn folder() -> Set {
    let rng = &mut Rng::new(1);
    let records: Vec<Vec<u8>> = (0..DIFFERENT).map(|_| gen::flow_rich(rng).to_bytes()).collect();
    let mut set = Set { name: "folder", bytes: Vec::with_capacity(FOLDER), lengths: vec![] };
    for record in records.iter().cycle() {
        if set.bytes.len() + record.len() > FOLDER {
            break;
        }
        set.bytes.extend(record);
        set.lengths.push(record.len());
    }
    set
}
