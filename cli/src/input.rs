//! Reading: files, standard input, folders, and the records in them.

use std::fs::{self, File};
use std::io::{self, Read};
use std::path::{Path, PathBuf};
use std::time::Duration;

use indicatif::ProgressBar;

use crate::recorder::{self, Driver, Routine, Unrecorded};

/// One byte more than a record may have: a longer file is refused by its first bytes.
const RECORD_READ: u64 = 65_537;

/// One byte more than a driver or a table may have here.
const FILE_READ: u64 = (256 << 20) + 1;

/// A smaller driver is recorded before anybody wonders.
const LARGE: usize = 1 << 20;

/// Why a driver's routines may not be all.
pub const MORE: &str = "the search for routines ended at a limit, there may be more";

/// A record with the name that stands before its part of the output, or why there is none.
pub struct Part {
    pub name: String,
    pub record: Result<Vec<u8>, NoRecord>,
}

pub enum NoRecord {
    /// The file could not be read, or holds no such routine.
    Unread(String),
    /// The recorder found the routine and says why it has no record.
    Unrecorded(Unrecorded),
}

/// The files to read, in the order of the command line: each folder by the files in it with this extension, by name.
pub fn files(named: &[PathBuf], extension: &str) -> Vec<Result<PathBuf, String>> {
    named.iter().flat_map(|path| if is_folder(path) { folder(path, extension) } else { vec![Ok(path.clone())] }).collect()
}

pub fn is_folder(path: &Path) -> bool {
    path != Path::new("-") && path.is_dir()
}

fn folder(path: &Path, extension: &str) -> Vec<Result<PathBuf, String>> {
    let why = |e: io::Error| format!("{}: {e}", path.display());
    let entries: io::Result<Vec<PathBuf>> = fs::read_dir(path).and_then(|entries| entries.map(|e| e.map(|e| e.path())).collect());
    match entries {
        Err(e) => vec![Err(why(e))],
        Ok(mut found) => {
            found.retain(|file| file.extension() == Some(extension.as_ref()) && file.is_file());
            found.sort();
            if found.is_empty() {
                return vec![Err(format!("{}: there is no *.{extension} in this folder", path.display()))];
            }
            found.into_iter().map(Ok).collect()
        }
    }
}

/// The records of a file: one, or those of a driver's routines. A file that begins with `MZ` is a driver; no record does.
pub fn parts(path: &Path, routine: Option<&str>) -> Vec<Part> {
    let name = path.display().to_string();
    let unread = |why: String| vec![Part { name: name.clone(), record: Err(NoRecord::Unread(why)) }];
    match read_record_or_driver(path) {
        Err(why) => unread(why),
        Ok(bytes) if bytes.starts_with(b"MZ") => match record_driver(&name, &bytes) {
            Err(why) => unread(why),
            Ok(driver) => {
                let mut parts = picked(&name, driver.routines, routine);
                parts.extend(driver.may_have_more.then(|| unread(MORE.into())).into_iter().flatten());
                parts
            }
        },
        Ok(_) if routine.is_some() => unread("--routine picks from a driver, and this is none".into()),
        Ok(record) => vec![Part { name, record: Ok(record) }],
    }
}

/// Records a driver; of a large one a terminal shows that it goes on.
pub fn record_driver(name: &str, file: &[u8]) -> Result<Driver, String> {
    let bar = if file.len() < LARGE { ProgressBar::hidden() } else { ProgressBar::new_spinner() };
    bar.set_message(format!("recording {name}"));
    bar.enable_steady_tick(Duration::from_millis(100));
    let driver = recorder::record_driver(file);
    bar.finish_and_clear();
    driver
}

/// All routines of a driver, or those with this address or name.
fn picked(driver: &str, routines: Vec<Routine>, word: Option<&str>) -> Vec<Part> {
    let parts: Vec<Part> =
        routines.into_iter().filter(|r| word.map_or(true, |word| is_called(r, word))).map(|r| part(driver, r)).collect();
    if !parts.is_empty() {
        return parts;
    }
    let why = word.map_or("no routine was found".into(), |word| format!("no routine has the address or name {word}"));
    vec![Part { name: driver.into(), record: Err(NoRecord::Unread(why)) }]
}

fn is_called(routine: &Routine, word: &str) -> bool {
    let digits = word.strip_prefix("0x").unwrap_or(word);
    routine.name.as_deref() == Some(word) || u64::from_str_radix(digits, 16) == Ok(routine.address)
}

fn part(driver: &str, routine: Routine) -> Part {
    let called = routine.name.map_or(String::new(), |name| format!(" {name}"));
    Part { name: format!("{driver} {:X}{called}", routine.address), record: routine.record.map_err(NoRecord::Unrecorded) }
}

/// As much of a file as a record may have, or all of a driver.
fn read_record_or_driver(path: &Path) -> Result<Vec<u8>, String> {
    let mut file = open(path).map_err(|e| e.to_string())?;
    let mut bytes = Vec::new();
    file.by_ref().take(RECORD_READ).read_to_end(&mut bytes).map_err(|e| e.to_string())?;
    if bytes.starts_with(b"MZ") {
        file.take(FILE_READ - bytes.len() as u64).read_to_end(&mut bytes).map_err(|e| e.to_string())?;
    }
    within_limit(bytes)
}

/// All of a file.
pub fn read_file(path: &Path) -> Result<Vec<u8>, String> {
    let mut bytes = Vec::new();
    open(path).and_then(|file| file.take(FILE_READ).read_to_end(&mut bytes)).map_err(|e| e.to_string())?;
    within_limit(bytes)
}

fn within_limit(bytes: Vec<u8>) -> Result<Vec<u8>, String> {
    if bytes.len() as u64 == FILE_READ {
        return Err("more than 256 MiB".into());
    }
    Ok(bytes)
}

fn open(path: &Path) -> io::Result<Box<dyn Read>> {
    if path == Path::new("-") {
        Ok(Box::new(io::stdin()))
    } else {
        Ok(Box::new(File::open(path)?))
    }
}

#[cfg(test)]
mod tests {
    use super::*;

    fn routines() -> Vec<Routine> {
        let routine = |address, name: Option<&str>, record| Routine {
            address,
            name: name.map(String::from),
            blocks: 1,
            instructions: 1,
            record,
        };
        let no = Err(Unrecorded::Other("a register that cannot be recorded: cr0".into()));
        vec![routine(0x1000, Some("Start"), Ok(vec![1])), routine(0xadd, Some("1000"), Ok(vec![2])), routine(0x2000, None, no)]
    }

    fn names(word: Option<&str>) -> Vec<String> {
        picked("d.sys", routines(), word).into_iter().map(|part| part.name).collect()
    }

    #[test]
    fn routines_are_picked_by_address_or_name() {
        assert_eq!(names(None), ["d.sys 1000 Start", "d.sys ADD 1000", "d.sys 2000"]);
        assert_eq!(names(Some("Start")), ["d.sys 1000 Start"]);
        assert_eq!(names(Some("0xADD")), ["d.sys ADD 1000"]);
        assert_eq!(names(Some("1000")), ["d.sys 1000 Start", "d.sys ADD 1000"]);
    }

    #[test]
    fn what_has_no_record_says_why() {
        assert!(matches!(&picked("d.sys", routines(), Some("2000"))[..], [Part { record: Err(NoRecord::Unrecorded(_)), .. }]));
        assert!(matches!(&picked("d.sys", Vec::new(), None)[..], [Part { record: Err(NoRecord::Unread(_)), .. }]));
        assert!(matches!(&picked("d.sys", routines(), Some("none"))[..], [Part { record: Err(NoRecord::Unread(_)), .. }]));
    }
}
