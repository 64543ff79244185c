//! Following the listing (#109): the route of the port's listing against the processor's on records that are as assumed, and the port's check of a
//! record against the second one's on these, on others and on damaged ones.

#[cfg(test)]
mod tests;

use super::{answer, Tally};
use crate::damage::{self, Call};
use crate::gen;
use crate::lists::{fitting, Lists};
use crate::port::{self, Port};
use crate::questions;
use crate::record::{Layout, Record, HEADER};
use crate::rng::Rng;
use crate::routes::assumed::{self, ASSUMED};
use crate::routes::listed::Reader;
use crate::routes::processor::Processor;
use crate::routes::{Route, Stop};
use crate::routines;
use crate::rows::{self, Row};

/// Of a generated record so many are asked for at most.
const MOST: usize = 200;

pub fn routes(seed: u64, count: usize) -> Result<bool, String> {
    let (tally, seen) = compared(&port::linked()?, seed, count, Tally::new("routes"))?;
    seen.print();
    Ok(tally.end())
}

/// All small routines, then so many records: most are made to be as assumed, others are any, and some of these are damaged.
fn compared(port: &Port, seed: u64, count: usize, mut tally: Tally) -> Result<(Tally, Seen), String> {
    let mut rng = Rng::new(seed);
    let mut seen = Seen::default();
    for record in routines::all() {
        record_alike(&record.to_bytes(), port, &all_outcomes(6), &mut tally, &mut seen)?;
    }
    for n in 0..count {
        let bytes = match n % 8 {
            6 => gen::valid(&mut rng).to_bytes(),
            7 => damaged(&mut rng),
            _ => gen::followed(&mut rng).to_bytes(),
        };
        let outcomes = some_outcomes(&mut rng);
        record_alike(&bytes, port, &outcomes, &mut tally, &mut seen)?;
    }
    Ok((tally, seen))
}

fn damaged(rng: &mut Rng) -> Vec<u8> {
    let record = if rng.percent(50) { gen::valid(rng) } else { gen::followed(rng) };
    damage::damaged(rng, &Call { to: record.blocks.len(), from: 0, bytes: record.to_bytes() }).bytes
}

/// Every list of outcomes of at most so many.
fn all_outcomes(most: usize) -> Vec<Vec<bool>> {
    let of = |length: usize| (0..1usize << length).map(move |bits| (0..length).map(|k| bits >> k & 1 == 1).collect());
    (0..=most).flat_map(of).collect()
}

/// Some lists of outcomes: none taken, all, every second, and any, often or seldom taken.
fn some_outcomes(rng: &mut Rng) -> Vec<Vec<bool>> {
    let any = |rng: &mut Rng| {
        let (length, often) = (rng.below(60), rng.pick(&[10, 30, 50, 50, 70, 90]));
        (0..length).map(|_| rng.percent(often)).collect()
    };
    let mut out = vec![vec![false; 40], vec![true; 40], (0..40).map(|n| n % 2 == 0).collect()];
    out.extend((0..6).map(|_| any(rng)));
    out
}

fn record_alike(bytes: &[u8], port: &Port, outcomes: &[Vec<bool>], tally: &mut Tally, seen: &mut Seen) -> Result<(), String> {
    tally.compared += 1;
    let call = Call { bytes: bytes.to_vec(), from: 0, to: blocks(bytes) };
    let alike = check_alike(&call, port, tally.compared, seen).and_then(|follows| match follows {
        true => routes_alike(&call, port, outcomes, seen),
        false => Ok(()),
    });
    match alike {
        Ok(()) => Ok(()),
        Err(why) => tally.differs(&call, || why),
    }
}

fn blocks(bytes: &[u8]) -> usize {
    if bytes.len() >= HEADER {
        Layout::of(bytes).b
    } else {
        0
    }
}

/// The port's check with a list of one entry, of none and of more, against the second one's. Answers whether all assumptions hold.
fn check_alike(call: &Call, port: &Port, n: usize, seen: &mut Seen) -> Result<bool, String> {
    const KEPT: u64 = 0xeeee_eeee_eeee_eeee;
    let room = [1, 1, 0, 3][n % 4];
    let (mut ours, mut theirs) = (vec![KEPT; room], vec![KEPT; room]);
    let want = assumed::check(&call.bytes, &mut ours);
    let got = (port.check)(&call.bytes, &mut theirs);
    if (want, &ours) != (got, &theirs) {
        return Err(format!(
            "the check: expected {} with {ours:x?}, the port says {} with {theirs:x?}",
            answer(want),
            answer(got)
        ));
    }
    let mut broken = [0];
    let no = assumed::check(&call.bytes, &mut broken);
    seen.checked(no, broken[0] as usize);
    Ok(no == 0 && broken[0] == 0)
}

/// Both routes, for each list of outcomes and several n.
fn routes_alike(call: &Call, port: &Port, outcomes: &[Vec<bool>], seen: &mut Seen) -> Result<(), String> {
    let record = Record::parse(&call.bytes);
    let lines = lines(call, port)?;
    let (reader, processor) = (Reader::new(&lines), Processor::new(&record)?);
    for outcomes in outcomes {
        for most in [MOST, 0, 1, 2, 5] {
            let (listed, met) = (reader.route(outcomes, most), processor.route(outcomes, most));
            if listed != met {
                return Err(format!("n {most}, outcomes {outcomes:?}: the listing {listed:x?}, the processor {met:x?}"));
            }
            seen.route(&met)?;
        }
    }
    Ok(())
}

/// The port's listing of the whole record.
fn lines(call: &Call, port: &Port) -> Result<Vec<Row>, String> {
    debug_assert_eq!(questions::first_no(&call.bytes, call.from, call.to), 0);
    let sizes = (port.size)(&call.bytes, call.from, call.to).sizes;
    let (answer, lists) = (port.list)(&call.bytes, call.from, call.to, Lists::lent(fitting(sizes)));
    match rows::held(&lists, sizes) {
        Some(lines) if answer.no == 0 => Ok(lines),
        _ => Err(format!("no {} of a record that is as assumed, or no lines", answer.no)),
    }
}

/// What came.
#[derive(Default)]
struct Seen {
    refused: usize,
    /// By the number of the first assumption that is broken; 0 for none.
    broken: [usize; 13],
    routes: usize,
    lines: usize,
    /// How often a route ended by `Enough`, `Returned`, `Left` and `Dry`.
    stops: [usize; 4],
}

impl Seen {
    fn checked(&mut self, no: u8, broken: usize) {
        match no {
            0 => self.broken[broken] += 1,
            _ => self.refused += 1,
        }
    }

    /// "Fewer come only at the same ending or where outcomes run out."
    fn route(&mut self, route: &Route) -> Result<(), String> {
        let stop = match route.stop {
            Stop::Enough => 0,
            Stop::Returned => 1,
            Stop::Left => 2,
            Stop::Dry => 3,
            other => return Err(format!("both routes are {other:?} after {:x?}", route.met)),
        };
        self.stops[stop] += 1;
        self.routes += 1;
        self.lines += route.met.len();
        Ok(())
    }

    fn print(&self) {
        println!("  {} records meet the assumptions, {} are refused, others break first:", self.broken[0], self.refused);
        for (n, text) in ASSUMED.iter().enumerate() {
            println!("    {:2} {text:92} {:7}", n + 1, self.broken[n + 1]);
        }
        let [enough, returned, left, dry] = self.stops;
        println!(
            "  {} routes met {} lines; {enough} met all asked for, {returned} returned, {left} left, {dry} ran out of outcomes",
            self.routes, self.lines
        );
    }
}
