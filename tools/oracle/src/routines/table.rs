//! What all small routines list as, counted: the table of docs/ROUTINES.md.

use std::collections::BTreeSet;
use std::ops::RangeInclusive;

use super::all;
use crate::listing::{list_record, Listing, Origin};
use crate::looks::looks;
use crate::record::Record;
use crate::routes::assumed::first_broken;

/// A routine and what there is to count of it.
struct Listed {
    record: Record,
    listing: Listing,
    /// The first assumption of #109 that is broken, 0 if all hold.
    broken: usize,
    looks: usize,
}

/// How many routines are so.
type Is = fn(&Listed) -> bool;

const COUNTED: [(&str, Is); 12] = [
    ("with `do {` ... `} while (C);`", |r| r.has(|origin| matches!(origin, Origin::Do(_)))),
    ("with `if (C) {` ... `}`", |r| r.has(|origin| matches!(origin, Origin::Open(_)))),
    ("with both", |r| r.has(|origin| matches!(origin, Origin::Do(_))) && r.has(|origin| matches!(origin, Origin::Open(_)))),
    ("with `if (C) goto X;`", |r| r.says(|line| line.starts_with("if ") && line.contains(" goto "))),
    ("with `goto X;`", |r| r.says(|line| line.starts_with("goto "))),
    ("with a goto in a do-loop that #101 adds", |r| !r.listing.added.is_empty()),
    ("with a jump to the next block, which has no line", |r| r.silent().next().is_some()),
    ("with a label", |r| r.has(|origin| matches!(origin, Origin::Label(_)))),
    ("with a label whose block has no other line", |r| r.silent().any(|place| r.has(|origin| *origin == Origin::Label(place)))),
    ("that may be followed (#109)", |r| r.broken == 0),
    ("with a goto to a label that does not stand, which breaks assumption 12", |r| r.broken == 12),
    ("that break another assumption", |r| ![0, 12].contains(&r.broken)),
];

/// From the fewest to the most of something.
const MEASURED: [(&str, fn(&Listed) -> usize); 3] = [
    ("lines of a listing", |r| r.listing.lines()),
    ("looks of a listing (#111)", |r| r.looks),
    ("bytes of a record", |r| r.record.layout().end),
];

/// Routines of so many blocks, by the columns of the table.
const COLUMNS: [(&str, RangeInclusive<usize>); 4] =
    [("one block", 1..=1), ("two blocks", 2..=2), ("three blocks", 3..=3), ("all", 1..=3)];

pub fn table() -> Result<String, String> {
    let listed = all().into_iter().map(Listed::of).collect::<Result<Vec<Listed>, String>>()?;
    let row = |what: &str, cell: &dyn Fn(&[&Listed]) -> String| {
        let cells = COLUMNS.map(|(_, blocks)| {
            let of: Vec<&Listed> = listed.iter().filter(|r| blocks.contains(&r.record.blocks.len())).collect();
            cell(&of)
        });
        format!("| {what} | {} |\n", cells.join(" | "))
    };
    let mut table = format!("| | {} |\n|---|---|---|---|---|\n", COLUMNS.map(|(name, _)| name).join(" | "));
    table += &row("routines", &|of| of.len().to_string());
    table += &row("different listings", &|of| of.iter().map(|r| r.listing.print()).collect::<BTreeSet<_>>().len().to_string());
    for (what, is) in COUNTED {
        table += &row(what, &|of| of.iter().filter(|r| is(r)).count().to_string());
    }
    for (what, measure) in MEASURED {
        table += &row(what, &|of| from_to(of.iter().map(|r| measure(r)).collect()));
    }
    Ok(table)
}

fn from_to(numbers: BTreeSet<usize>) -> String {
    match (numbers.first(), numbers.last()) {
        (Some(least), Some(most)) if least < most => format!("{least} to {most}"),
        (Some(only), _) => only.to_string(),
        _ => String::new(),
    }
}

impl Listed {
    fn of(record: Record) -> Result<Listed, String> {
        let blocks = record.blocks.len();
        let listing = list_record(&record, 0, blocks)?;
        Ok(Listed { listing, broken: first_broken(&record)?, looks: looks(&record, 0, blocks), record })
    }

    fn has(&self, is: impl Fn(&Origin) -> bool) -> bool {
        self.listing.origins.iter().any(is)
    }

    fn says(&self, is: impl Fn(&str) -> bool) -> bool {
        (0..self.listing.lines()).any(|n| is(&String::from_utf8_lossy(self.listing.line(n))))
    }

    /// The places of blocks whose instruction has no line. Each block has one instruction, so that both have the same number.
    fn silent(&self) -> impl Iterator<Item = usize> + '_ {
        let shows = |place: usize| [Origin::Open(place), Origin::While(place), Origin::Instruction(place)];
        (0..self.record.blocks.len()).filter(move |place| !self.has(|origin| shows(*place).contains(origin)))
    }
}
