//! One-line mutants of the Rust, each compiled beside it: a mutant is noticed at the first range
//! of the `listing` comparison at which a list of its listing is not the Rust's.

use std::collections::BTreeSet;

use crate::compare::listing_call;
use crate::damage::Call;
use crate::departures;
use crate::emitter::PseudoLine;
use crate::listing;
use crate::questions;
use crate::record::Record;
use crate::replay;
use crate::rng::Rng;

pub struct Mutant {
    name: &'static str,
    function: &'static str,
    /// Why no record tells the mutant from the Rust; empty if one must.
    equivalent: &'static str,
    run: fn(&Record, usize, usize) -> (Vec<PseudoLine>, u64),
}

/// A mutant's lines, as lines of the emitter.
macro_rules! run_of {
    ($mutant:ident) => {
        |record, from, to| {
            let (lines, tag) = $mutant::run(record, from, to);
            let plain = |l: $mutant::PseudoLine| PseudoLine { address: l.address, indent: l.indent, tokens: l.tokens };
            (lines.into_iter().map(plain).collect(), tag)
        }
    };
}

include!(concat!(env!("OUT_DIR"), "/mutants.rs"));

/// Tries every mutant on so many ranges; tells whether all were noticed but those said to be equivalent.
pub fn mutants(seed: u64, count: usize) -> Result<bool, String> {
    let mut rng = Rng::new(seed);
    let noticed = first_noticed((0..count).map(|n| listing_call(&mut rng, n)))?;
    for (mutant, at) in MUTANTS.iter().zip(&noticed) {
        println!("{:26} {:26} {}", mutant.name, mutant.function, mutant.verdict(*at));
    }
    print_replay()?;
    let survived = noticed.iter().filter(|at| at.is_none()).count();
    println!("mutants: {} tried, {} noticed, {survived} survived", MUTANTS.len(), MUTANTS.len() - survived);
    Ok(MUTANTS.iter().zip(&noticed).all(|(mutant, at)| at.is_none() != mutant.equivalent.is_empty()))
}

/// Which mutants the listings of the replay corpus miss.
fn print_replay() -> Result<(), String> {
    let calls = replay::cases(replay::COUNT, replay::SEED)?.into_iter().filter(|case| case.no == 0).map(|case| case.call);
    let noticed = first_noticed(calls)?;
    let missed: Vec<&str> = MUTANTS.iter().zip(&noticed).filter(|(_, at)| at.is_none()).map(|(m, _)| m.name).collect();
    println!("the replay corpus notices {}, and misses: {}", MUTANTS.len() - missed.len(), missed.join(", "));
    Ok(())
}

/// For each mutant the number of the first call whose listing it changes.
fn first_noticed(calls: impl Iterator<Item = Call>) -> Result<Vec<Option<usize>>, String> {
    let mut noticed = vec![None; MUTANTS.len()];
    for (n, call) in calls.enumerate() {
        if questions::first_no(&call.bytes, call.from, call.to) != 0 {
            continue;
        }
        let record = Record::parse(&call.bytes);
        // The port is not compared with the unchanged Rust there.
        if !departures::whole(&record) {
            notice(&record, call.from, call.to, n, &mut noticed)?;
        }
    }
    Ok(noticed)
}

impl Mutant {
    fn verdict(&self, at: Option<usize>) -> String {
        match (at, self.equivalent) {
            (None, "") => "SURVIVED".to_string(),
            (None, why) => format!("SURVIVED, as it must: {why}"),
            (Some(n), "") => format!("noticed at range {n}"),
            (Some(n), _) => format!("noticed at range {n}, though said to be equivalent"),
        }
    }
}

/// Tries the mutants that are left on range `n`.
fn notice(record: &Record, from: usize, to: usize, n: usize, noticed: &mut [Option<usize>]) -> Result<(), String> {
    let ours = listing::unchanged(record, from, to).map_err(|e| format!("the Rust panics: {e}"))?;
    for (mutant, at) in MUTANTS.iter().zip(noticed).filter(|(_, at)| at.is_none()) {
        let same = listing::lines_of(record, || (mutant.run)(record, from, to)).is_ok_and(|l| ours.difference(&l).is_none());
        *at = (!same).then_some(n);
    }
    Ok(())
}

/// Seeds below `count` of small valid calls that together notice every mutant that one of them notices.
pub fn witnesses(count: usize) -> Result<Vec<usize>, String> {
    let is_small = |seed: &usize| replay::valid_call(*seed as u64).bytes.len() <= replay::SMALL;
    let small: Vec<usize> = (0..count).filter(is_small).collect();
    // What a later seed notices too, an earlier one need not.
    let found = firsts(&small)?;
    let mut needed = firsts(&found.into_iter().rev().collect::<Vec<usize>>())?;
    needed.sort_unstable();
    Ok(needed)
}

/// The seeds that notice a mutant which none before them notices.
fn firsts(seeds: &[usize]) -> Result<Vec<usize>, String> {
    let noticed = first_noticed(seeds.iter().map(|seed| replay::valid_call(*seed as u64)))?;
    let numbers: BTreeSet<usize> = noticed.into_iter().flatten().collect();
    Ok(numbers.into_iter().map(|n| seeds[n]).collect())
}
