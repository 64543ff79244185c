//! Folders of generated records, as they are and by columns, for compressors.

use std::fs;
use std::path::Path;

use super::by_columns;
use crate::gen;
use crate::record::Record;
use crate::rng::Rng;

const RECORDS: usize = 2000;

/// Records of one kind each.
const SETS: [(&str, fn(&mut Rng) -> Record); 3] =
    [("flow", gen::flow_rich), ("straight", gen::straight), ("senders", gen::sender)];

/// The records of a set in FOLDER/bodies and FOLDER/columns, each under its number.
pub fn keep(set: &str, folder: &str) -> Result<bool, String> {
    let (_, make) = SETS.iter().find(|(name, _)| *name == set).ok_or("no such set: flow, straight or senders")?;
    let mut rng = Rng::new(1);
    for n in 0..RECORDS {
        let record = make(&mut rng).to_bytes();
        for (way, bytes) in [("bodies", &record), ("columns", &by_columns(&record))] {
            let file = Path::new(folder).join(way).join(format!("{n:04}"));
            fs::write(&file, bytes).map_err(|e| format!("{}: {e}", file.display()))?;
        }
    }
    Ok(true)
}
