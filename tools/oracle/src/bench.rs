//! The port's speed against the Rust's, on the same records, in one run.

pub mod columns;
pub mod rows;

use std::hint::black_box;
use std::time::{Duration, Instant};

use crate::lists::Lists;
use crate::looks::totals::Totals;
use crate::record::Record;
use crate::rng::Rng;
use crate::{emitter, gen, port};

/// Records of one kind.
struct Set {
    name: &'static str,
    records: Vec<Record>,
}

/// Times of a record, in nanoseconds an instruction.
struct Times {
    rust: f64,
    port: f64,
}

impl Times {
    fn ratio(&self) -> f64 {
        self.rust / self.port
    }
}

const TURNS: u32 = 5;

/// Prints each set's times and looks, the growth with the number of blocks, and the ratios as the last line.
pub fn run() -> Result<bool, String> {
    let sets = sets();
    let mut ratios = Vec::new();
    for set in &sets {
        let times: Vec<Times> = set.records.iter().map(|r| measure(r, Duration::from_millis(100))).collect();
        let ratio = print_set(set, &times);
        print_looks(set)?;
        ratios.push(format!("{} {ratio:.1}", set.name));
    }
    println!("growth, ns an instruction (the same blocks again and again):");
    for blocks in [25, 50, 100, 200] {
        let t = measure(&gen::repeated(blocks), Duration::from_millis(200));
        println!("  {blocks:3} blocks: Rust {:7.1}, port {:7.1}", t.rust, t.port);
    }
    println!("ratio {}", ratios.join(" "));
    Ok(true)
}

/// One listing of every record of a set by the Rust, or by the port: for counters of instructions.
pub fn once(name: &str, rust: bool) -> Result<bool, String> {
    let sets = sets();
    let set = sets.iter().find(|s| s.name == name).ok_or("no such set: straight, flow or worst")?;
    let mut instructions = 0;
    for record in &set.records {
        instructions += record.layout().i;
        if rust {
            emitter::time(record, 1);
        } else {
            port_time(&record.to_bytes(), record.blocks.len(), 1);
        }
    }
    println!("instructions {instructions}");
    Ok(true)
}

fn sets() -> [Set; 3] {
    let mut rng = Rng::new(1);
    let mut many = |n: usize, make: fn(&mut Rng) -> Record| (0..n).map(|_| make(&mut rng)).collect::<Vec<_>>();
    let straight = many(12, gen::straight);
    let flow = many(24, gen::flow_rich);
    let mut worst = many(4, gen::at_limits);
    worst.extend(many(4, gen::deepest));
    worst.extend(many(4, gen::pushes));
    worst.extend(many(4, gen::named));
    [Set { name: "straight", records: straight }, Set { name: "flow", records: flow }, Set { name: "worst", records: worst }]
}

/// The best of several runs, since what disturbs a run only makes it longer; the two take turns, so that it disturbs both.
fn measure(record: &Record, budget: Duration) -> Times {
    let bytes = record.to_bytes();
    let n = record.layout().i.max(1) as f64;
    let (mut rust, mut port) = (f64::MAX, f64::MAX);
    for _ in 0..TURNS {
        rust = rust.min(best(budget / TURNS, |times| emitter::time(record, times)));
        port = port.min(best(budget / TURNS, |times| port_time(&bytes, record.blocks.len(), times)));
    }
    Times { rust: rust / n, port: port / n }
}

/// Nanoseconds a listing.
fn best(budget: Duration, time: impl Fn(usize) -> Duration) -> f64 {
    let mut times = 1;
    while time(times) < budget / 10 && times < 1 << 20 {
        times *= 2;
    }
    let began = Instant::now();
    let mut least = f64::MAX;
    while began.elapsed() < budget {
        least = least.min(time(times).as_nanos() as f64 / times as f64);
    }
    least
}

/// How long so many calls of the port for the whole range take, on lists with room to spare.
fn port_time(bytes: &[u8], blocks: usize, times: usize) -> Duration {
    let mut lists = room(1 << 20);
    let mut lent = port::slices(&mut lists);
    let began = Instant::now();
    for _ in 0..times {
        let listed = cakirotu::list_into(black_box(bytes), 0..blocks, &mut lent);
        black_box(listed.expect("a record of the benchmark is listed"));
    }
    began.elapsed()
}

/// Lists with room to spare for n tokens.
fn room(n: usize) -> Lists {
    Lists {
        text: vec![0; 16 * n],
        ends: vec![0; n],
        kinds: vec![0; n],
        addresses: vec![0; 900],
        marks: vec![0; 900],
        places: vec![0; 900],
        line_ends: vec![0; 900],
    }
}

/// How many bytes the seven lists of the whole range's listing have.
fn listed(bytes: &[u8], blocks: usize) -> usize {
    let sizes = cakirotu::size(bytes, 0..blocks).expect("a record of the benchmark is listed").sizes;
    sizes.text + sizes.tokens * (4 + 1) + sizes.lines * (8 + 2 + 2 + 4)
}

/// Bytes of the records and of their listings' lists, an instruction.
fn moved(set: &Set) -> (f64, f64) {
    let (mut read, mut written, mut instructions) = (0, 0, 0);
    for record in &set.records {
        let bytes = record.to_bytes();
        read += bytes.len();
        written += listed(&bytes, record.blocks.len());
        instructions += record.layout().i;
    }
    (read as f64 / instructions as f64, written as f64 / instructions as f64)
}

/// The port's looks (#111) of the whole range.
fn looks(record: &Record) -> usize {
    port::size(&record.to_bytes(), 0, record.blocks.len()).looks
}

/// The set's looks beside its records' blocks times edges.
fn print_looks(set: &Set) -> Result<(), String> {
    let mut totals = Totals::default();
    for record in &set.records {
        totals.add(looks(record), record.blocks.len(), record.layout().e)?;
    }
    let Totals { looks, products, most, ratio, met: [blocks, edges] } = totals;
    println!(
        "  looks {looks}, B × E {products}, ratio {:.2}; of a record at most {most}, ratio {ratio:.2} (B {blocks} E {edges})",
        looks as f64 / products.max(1) as f64
    );
    Ok(())
}

/// The set's mean times and ratio; of the set `worst` the least ratio of a record.
fn print_set(set: &Set, times: &[Times]) -> f64 {
    let n = times.len() as f64;
    let rust = times.iter().map(|t| t.rust).sum::<f64>() / n;
    let port = times.iter().map(|t| t.port).sum::<f64>() / n;
    let least = times.iter().map(Times::ratio).fold(f64::MAX, f64::min);
    println!(
        "{}: {} records, ns an instruction: Rust {rust:.1}, port {port:.1}, ratio {:.1}, least {least:.1}",
        set.name,
        times.len(),
        rust / port
    );
    let (read, written) = moved(set);
    println!("  an instruction has {read:.0} bytes of record and {written:.0} of lists");
    if set.name == "worst" {
        for (r, t) in set.records.iter().zip(times) {
            let l = r.layout();
            println!(
                "  B {:3} I {:3} E {:3} A {:3}: Rust {:8.1}, port {:8.1}, ratio {:.1}; looks {}",
                l.b,
                l.i,
                l.e,
                l.a,
                t.rust,
                t.port,
                t.ratio(),
                looks(r)
            );
        }
        return least;
    }
    rust / port
}
