//! `record`: every routine of a driver as a record, with an index.

use std::collections::BTreeMap;
use std::fs;
use std::path::Path;

use cakirotu::Refusal;
use rayon::prelude::*;

use crate::input;
use crate::many::Answer;
use crate::recorder::{Driver, Routine, Unrecorded};
use crate::status::Status;

const HEADING: [&str; 6] = ["address", "name", "blocks", "instructions", "file", "answer"];

/// What became of a routine.
#[derive(Clone, Debug, PartialEq, Eq, PartialOrd, Ord)]
enum Outcome {
    Listed,
    /// The question's number, and the answer in words.
    Refused(u8, String),
    /// Why there is no record.
    Unrecorded(String),
}

/// Writes the records and the index into a folder; the last line counts them.
pub fn record(driver: &Path, folder: &Path) -> Answer {
    let name = driver.display().to_string();
    let Driver { routines, may_have_more } = match input::read_file(driver).and_then(|file| input::record_driver(&name, &file)) {
        Ok(driver) => driver,
        Err(why) => return Answer::unread(&name, &why),
    };
    let outcomes: Vec<Outcome> = routines.par_iter().map(outcome).collect();
    if let Err(why) = write_all(folder, &routines, &outcomes) {
        return Answer::unread(&folder.display().to_string(), &why);
    }
    let out = summary(&outcomes).into_bytes();
    if may_have_more {
        return Answer { out, ..Answer::unread(&name, input::MORE) };
    }
    let status = if outcomes.iter().all(|o| *o == Outcome::Listed) { Status::Listed } else { Status::Refused };
    Answer { out, err: String::new(), status }
}

fn outcome(routine: &Routine) -> Outcome {
    match &routine.record {
        Err(why @ Unrecorded::Limit(_)) => Outcome::Refused(Refusal::Limits.number(), why.to_string()),
        Err(Unrecorded::Other(why)) => Outcome::Unrecorded(why.clone()),
        Ok(record) => match cakirotu::size(record, cakirotu::blocks(record)) {
            Ok(_) => Outcome::Listed,
            Err(refusal) => Outcome::Refused(refusal.number(), refusal.to_string()),
        },
    }
}

fn file_name(routine: &Routine) -> String {
    routine.record.as_ref().map_or(String::new(), |_| format!("{:016X}.rec", routine.address))
}

fn write_all(folder: &Path, routines: &[Routine], outcomes: &[Outcome]) -> Result<(), String> {
    let io = |e: std::io::Error| e.to_string();
    fs::create_dir_all(folder).map_err(io)?;
    for routine in routines {
        if let Ok(record) = &routine.record {
            fs::write(folder.join(file_name(routine)), record).map_err(io)?;
        }
    }
    fs::write(folder.join("index.csv"), index(routines, outcomes)?).map_err(io)
}

/// A row for every routine, none left out.
fn index(routines: &[Routine], outcomes: &[Outcome]) -> Result<Vec<u8>, String> {
    let mut out = csv::Writer::from_writer(Vec::new());
    out.write_record(HEADING).map_err(|e| e.to_string())?;
    for (routine, outcome) in routines.iter().zip(outcomes) {
        let answer = match outcome {
            Outcome::Listed => "listed".to_string(),
            Outcome::Refused(_, words) => words.clone(),
            Outcome::Unrecorded(why) => Unrecorded::Other(why.clone()).to_string(),
        };
        let address = format!("{:016X}", routine.address);
        let name = routine.name.clone().unwrap_or_default();
        let row = [address, name, routine.blocks.to_string(), routine.instructions.to_string(), file_name(routine), answer];
        out.write_record(row).map_err(|e| e.to_string())?;
    }
    out.into_inner().map_err(|e| e.to_string())
}

/// As `149 routines, 146 listed, 3 refused: 3 by question 3`; those without a record are counted apart, by the reason.
fn summary(outcomes: &[Outcome]) -> String {
    let (mut listed, mut questions, mut reasons) = (0, BTreeMap::new(), BTreeMap::new());
    for outcome in outcomes {
        match outcome {
            Outcome::Listed => listed += 1,
            Outcome::Refused(number, _) => *questions.entry(format!("question {number:2}")).or_insert(0) += 1,
            Outcome::Unrecorded(why) => *reasons.entry(reason(why)).or_insert(0) += 1,
        }
    }
    let mut text = format!("{} routines, {listed} listed", outcomes.len());
    text.push_str(&counted("refused", &questions, ", "));
    text.push_str(&counted("without a record", &reasons, "; "));
    text + "\n"
}

/// The reason without its details, so that like ones are counted together: `at 401000 a register that a record has no number for: cr0` and
/// `300 edges of one block, more than the 255 that a record holds` lose the address, the number in front and what stands behind the colon.
fn reason(why: &str) -> String {
    let words: Vec<&str> = why.split(':').next().unwrap_or(why).split(' ').collect();
    let is_address = |word: &&str| {
        word.contains(|c: char| c.is_ascii_digit()) && u64::from_str_radix(word.trim_start_matches("0x"), 16).is_ok()
    };
    let mut kept = Vec::new();
    let mut at = usize::from(words[0].parse::<u64>().is_ok());
    while at < words.len() {
        if words[at] == "at" && words.get(at + 1).is_some_and(is_address) {
            at += 2;
        } else {
            kept.push(words[at]);
            at += 1;
        }
    }
    kept.join(" ")
}

/// As `, 3 refused: 2 by question 3, 1 by question 8`.
fn counted(what: &str, by: &BTreeMap<String, usize>, between: &str) -> String {
    let each: Vec<String> = by.iter().map(|(why, n)| format!("{n} by {}", why.replace("question  ", "question "))).collect();
    match by.values().sum::<usize>() {
        0 => String::new(),
        all => format!(", {all} {what}: {}", each.join(between)),
    }
}

#[cfg(test)]
mod tests {
    use super::*;

    fn refused(number: u8) -> Outcome {
        Outcome::Refused(number, format!("no {number}: why"))
    }

    #[test]
    fn the_last_line_counts() {
        let mut outcomes = vec![Outcome::Listed; 146];
        assert_eq!(summary(&outcomes), "146 routines, 146 listed\n");
        outcomes.extend([refused(3), refused(3), refused(3)]);
        assert_eq!(summary(&outcomes), "149 routines, 146 listed, 3 refused: 3 by question 3\n");
        outcomes.extend([refused(15), Outcome::Unrecorded("undecodable bytes: 401000".into())]);
        let last =
            "151 routines, 146 listed, 4 refused: 3 by question 3, 1 by question 15, 1 without a record: 1 by undecodable bytes\n";
        assert_eq!(summary(&outcomes), last);
    }

    #[test]
    fn like_reasons_are_counted_together() {
        let reasons = [
            ("220 blocks, more than the 200 that a record holds", "blocks, more than the 200 that a record holds"),
            ("at 401000 a register that a record has no number for: cr0", "a register that a record has no number for"),
            ("bytes at 401000 that do not decode", "bytes that do not decode"),
            ("more code than is decoded of one file", "more code than is decoded of one file"),
            ("a jump at a place unknown", "a jump at a place unknown"),
            ("", ""),
        ];
        for (why, want) in reasons {
            assert_eq!(reason(why), want);
        }
        let outcomes = reasons.map(|(why, _)| Outcome::Unrecorded(why.into()));
        let last = "2 routines, 0 listed, 2 without a record: 1 by a register that a record has no number for; \
            1 by blocks, more than the 200 that a record holds\n";
        assert_eq!(summary(&outcomes[..2]), last);
    }

    fn routines() -> [Routine; 4] {
        let record = cakirotu::routine(0).unwrap();
        let routine = |address, record| Routine { address, name: Some("a,b".into()), blocks: 1, instructions: 2, record };
        let (limit, other) = (Unrecorded::Limit("501 instructions".into()), Unrecorded::Other("st0".into()));
        [routine(0x1000, Ok(record)), routine(0x2000, Ok(Vec::new())), routine(0x3000, Err(other)), routine(0x4000, Err(limit))]
    }

    #[test]
    fn every_record_has_its_file() {
        let folder = std::env::temp_dir().join(format!("cakirotu-record-{}", std::process::id()));
        let outcomes: Vec<Outcome> = routines().iter().map(outcome).collect();
        write_all(&folder, &routines(), &outcomes).unwrap();
        let mut names: Vec<_> = fs::read_dir(&folder).unwrap().map(|e| e.unwrap().file_name()).collect();
        names.sort();
        assert_eq!(names, ["0000000000001000.rec", "0000000000002000.rec", "index.csv"]);
        assert_eq!(fs::read(folder.join("0000000000001000.rec")).unwrap(), cakirotu::routine(0).unwrap());
        fs::remove_dir_all(&folder).unwrap();
    }

    #[test]
    fn the_index_has_every_routine() {
        let routines = routines();
        let outcomes: Vec<Outcome> = routines.iter().map(outcome).collect();
        let index = String::from_utf8(index(&routines, &outcomes).unwrap()).unwrap();
        let want = "address,name,blocks,instructions,file,answer\n\
            0000000000001000,\"a,b\",1,2,0000000000001000.rec,listed\n\
            0000000000002000,\"a,b\",1,2,0000000000002000.rec,no 1: Are there at least 24 bytes?\n\
            0000000000003000,\"a,b\",1,2,,no record: st0\n\
            0000000000004000,\"a,b\",1,2,,no 3: 501 instructions\n";
        assert_eq!(index, want);
        let last = "4 routines, 1 listed, 2 refused: 1 by question 1, 1 by question 3, 1 without a record: 1 by st0\n";
        assert_eq!(summary(&outcomes), last);
    }
}
