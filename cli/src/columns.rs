//! `columns`: records by columns for a store, and back.

use std::collections::HashSet;
use std::fs;
use std::io;
use std::path::{Path, PathBuf};

use cakirotu::Refusal;

use crate::args::Sources;
use crate::input;
use crate::many::{self, Answer};
use crate::status::Status;

/// One record to standard output as the programs `to_columns` and `from_columns` do, or each into a file of a folder.
pub fn columns(back: bool, output: Option<&Path>, sources: &Sources) -> io::Result<Status> {
    let work: fn(&[u8]) -> Result<Vec<u8>, Refusal> = if back { cakirotu::from_columns } else { cakirotu::to_columns };
    let (from, to) = if back { ("columns", "rec") } else { ("rec", "columns") };
    let files = input::files(&sources.files, from);
    match output {
        Some(folder) => match prepare(folder, &files, to) {
            Ok(()) => many::over_files(&files, |path| to_folder(path, folder, to, sources.routine.as_deref(), &work)),
            Err(answer) => many::write(&answer).map(|()| answer.status),
        },
        None if files.len() == 1 => many::over_files(&files, |path| to_output(path, sources.routine.as_deref(), &work)),
        None => several(),
    }
}

fn several() -> io::Result<Status> {
    let answer = Answer::unread("columns", "several records need a folder: -o DIR");
    many::write(&answer).map(|()| answer.status)
}

/// The folder is there, and no two files go into one.
fn prepare(folder: &Path, files: &[Result<PathBuf, String>], extension: &str) -> Result<(), Answer> {
    fs::create_dir_all(folder).map_err(|e| Answer::unread(&folder.display().to_string(), &e.to_string()))?;
    let mut seen = HashSet::new();
    for path in files.iter().flatten() {
        let made = stored_name(path, extension);
        if !seen.insert(made.clone()) {
            return Err(Answer::unread(&path.display().to_string(), &format!("another file goes into {} too", made.display())));
        }
    }
    Ok(())
}

/// `send.rec` goes into `send.columns` and back; standard input into `record`.
fn stored_name(path: &Path, extension: &str) -> PathBuf {
    let stem = if path == Path::new("-") { "record".as_ref() } else { path.file_stem().unwrap_or("record".as_ref()) };
    Path::new(stem).with_extension(extension)
}

fn to_output(path: &Path, routine: Option<&str>, work: &many::Work<'_>) -> Answer {
    match &input::parts(path, routine)[..] {
        [part] => many::answer(part, work),
        _ => several_routines(path),
    }
}

/// Into a file of the folder; a refusal is printed behind the record's name.
fn to_folder(path: &Path, folder: &Path, extension: &str, routine: Option<&str>, work: &many::Work<'_>) -> Answer {
    let parts = input::parts(path, routine);
    let [part] = &parts[..] else {
        return several_routines(path);
    };
    let answer = many::answer(part, work);
    if answer.status != Status::Listed {
        return answer.named(&part.name);
    }
    let file = folder.join(stored_name(path, extension));
    match fs::write(&file, &answer.out) {
        Ok(()) => Answer { out: Vec::new(), ..answer },
        Err(e) => Answer::unread(&file.display().to_string(), &e.to_string()),
    }
}

fn several_routines(path: &Path) -> Answer {
    let why = "a driver has several routines: pick one with --routine, or record it first";
    Answer::unread(&path.display().to_string(), why)
}
