//! Listings of generated records, by the Rust, and names taken from them.

use super::any::Case;
use super::{call, REGISTER};
use crate::damage::valid_call;
use crate::gen;
use crate::listing;
use crate::lists::{fitting, Lists};
use crate::literals::ADDRESS;
use crate::rng::Rng;
use crate::rows::{self, Row};

/// Of a routine that sends commands, or of any record; or the message of the Rust's panic.
pub fn case(rng: &mut Rng) -> Result<Case, String> {
    let listed = if rng.percent(70) {
        let record = gen::sender(rng);
        listing::list_record(&record, 0, record.blocks.len())?
    } else {
        let call = valid_call(rng);
        listing::list(&call.bytes, call.from, call.to)?
    };
    let lists = Lists::lent(fitting(listed.sizes())).filled(&listed);
    let lines = rows::held(&lists, listed.sizes()).ok_or("a listing holds no rows")?;
    let call = a_call(rng, &lines);
    let register = a_register(rng, &lines);
    Ok(Case { lines, call, register })
}

/// The third token of a call line, or now and then of another line.
fn a_call(rng: &mut Rng, lines: &[Row]) -> Vec<u8> {
    let thirds: Vec<&[u8]> = match rng.percent(90) {
        true => lines.iter().filter_map(|line| call(line).map(|(_, name)| name)).collect(),
        false => lines.iter().filter_map(|line| line.tokens.get(2)).map(|token| &token.text[..]).collect(),
    };
    one_of(rng, &thirds, b"SendCommand")
}

/// A register that a line begins with, mostly one that is set to a literal.
fn a_register(rng: &mut Rng, lines: &[Row]) -> Vec<u8> {
    let literals = rng.percent(80);
    let begins = |line: &&Row| {
        let sets = line.tokens.get(2).is_some_and(|third| third.kind == ADDRESS);
        line.tokens[0].kind == REGISTER && (sets || !literals)
    };
    let firsts: Vec<&[u8]> = lines.iter().filter(begins).map(|line| &line.tokens[0].text[..]).collect();
    one_of(rng, &firsts, b"rdx")
}

fn one_of(rng: &mut Rng, words: &[&[u8]], otherwise: &[u8]) -> Vec<u8> {
    if words.is_empty() { otherwise } else { rng.pick(words) }.to_vec()
}
