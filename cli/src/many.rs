//! Many files in one process: on all cores, output in the order of the files, progress on a terminal.

use std::io::{self, Write};
use std::path::{Path, PathBuf};

use cakirotu::Refusal;
use indicatif::{ProgressBar, ProgressDrawTarget, ProgressStyle};
use rayon::prelude::*;

use crate::args::Sources;
use crate::input::{self, NoRecord, Part};
use crate::status::Status;

/// So many files are worked on before their output is written, so that memory stays bounded.
const AT_ONCE: usize = 512;

/// Fewer files than this are done before anybody would read a progress bar.
const MANY: usize = 200;

/// What is printed of a record.
pub type Work<'a> = dyn Fn(&[u8]) -> Result<Vec<u8>, Refusal> + Sync + 'a;

/// What becomes of a record of which nothing is printed, where there are several.
#[derive(Clone, Copy, PartialEq, Eq)]
pub enum Empty {
    /// Its name is printed.
    Named,
    LeftOut,
}

/// What a file gives: standard output, standard error, and the status.
pub struct Answer {
    pub out: Vec<u8>,
    pub err: String,
    pub status: Status,
}

impl Answer {
    pub fn unread(name: &str, why: &str) -> Answer {
        Answer { out: Vec::new(), err: format!("cakirotu: {name}: {why}\n"), status: Status::Unread }
    }

    /// Behind a line with the record's name; what could not be read has its name on standard error.
    pub fn named(mut self, name: &str) -> Answer {
        if self.status != Status::Unread {
            self.out.splice(0..0, format!("{name}:\n").into_bytes());
        }
        self
    }
}

/// A refusal in words on standard output, where the program has its `no N`.
pub fn refused(words: &str) -> Answer {
    Answer { out: format!("{words}\n").into_bytes(), err: String::new(), status: Status::Refused }
}

/// Prints what the work makes of every record; a line with the name stands before each if there are several.
pub fn print_each(sources: &Sources, empty: Empty, work: &Work<'_>) -> io::Result<Status> {
    let several = sources.files.len() > 1 || sources.files.iter().any(|path| input::is_folder(path));
    let files = input::files(&sources.files, "rec");
    over_files(&files, |path| {
        let parts = input::parts(path, sources.routine.as_deref());
        let several = several || parts.len() > 1;
        let named = |part: Part| {
            let answer = answer(&part, work);
            if several && (empty == Empty::Named || !answer.out.is_empty()) {
                answer.named(&part.name)
            } else {
                answer
            }
        };
        joined(parts.into_par_iter().map(named).collect())
    })
}

/// Runs over files on all cores and writes the answers in their order.
pub fn over_files(files: &[Result<PathBuf, String>], each: impl Fn(&Path) -> Answer + Sync) -> io::Result<Status> {
    let bar = progress(files.len());
    let mut status = Status::Listed;
    for some in files.chunks(AT_ONCE) {
        let answers: Vec<Answer> = some
            .par_iter()
            .map(|file| {
                let answer = match file {
                    Ok(path) => each(path),
                    Err(why) => Answer { out: Vec::new(), err: format!("cakirotu: {why}\n"), status: Status::Unread },
                };
                bar.inc(1);
                answer
            })
            .collect();
        for answer in answers {
            bar.suspend(|| write(&answer))?;
            status = status.max(answer.status);
        }
    }
    bar.finish_and_clear();
    Ok(status)
}

pub fn write(answer: &Answer) -> io::Result<()> {
    let mut out = io::stdout().lock();
    out.write_all(&answer.out)?;
    out.flush()?;
    complain(&answer.err);
    Ok(())
}

/// To standard error; if nobody reads that, there is nobody to tell.
pub fn complain(text: &str) {
    let _ = io::stderr().write_all(text.as_bytes());
}

/// What is printed of a part.
pub fn answer(part: &Part, work: &Work<'_>) -> Answer {
    match &part.record {
        Err(NoRecord::Unread(why)) => Answer::unread(&part.name, why),
        Err(NoRecord::Unrecorded(why)) => refused(&why.to_string()),
        Ok(record) => match work(record) {
            Ok(out) => Answer { out, err: String::new(), status: Status::Listed },
            Err(refusal) => refused(&refusal.to_string()),
        },
    }
}

fn joined(answers: Vec<Answer>) -> Answer {
    let mut all = Answer { out: Vec::new(), err: String::new(), status: Status::Listed };
    for answer in answers {
        all.out.extend(answer.out);
        all.err.push_str(&answer.err);
        all.status = all.status.max(answer.status);
    }
    all
}

/// A bar on standard error; hidden if that is no terminal or the work is short.
fn progress(files: usize) -> ProgressBar {
    if files < MANY {
        return ProgressBar::hidden();
    }
    let bar = ProgressBar::with_draw_target(Some(files as u64), ProgressDrawTarget::stderr());
    let style = ProgressStyle::with_template("{wide_bar} {pos}/{len} files, {eta} left");
    bar.with_style(style.unwrap_or_else(|_| ProgressStyle::default_bar()))
}

#[cfg(test)]
mod tests {
    use super::*;
    use crate::recorder::Unrecorded;

    fn answered(record: Result<Vec<u8>, NoRecord>, named: bool) -> (String, String, Status) {
        let part = Part { name: "d.sys 1000".into(), record };
        let answer = answer(&part, &|record| if record.is_empty() { Err(Refusal::Header) } else { Ok(record.to_vec()) });
        let answer = if named { answer.named(&part.name) } else { answer };
        (String::from_utf8(answer.out).unwrap(), answer.err, answer.status)
    }

    #[test]
    fn parts_are_answered() {
        let none = String::new();
        assert_eq!(answered(Ok(b"x".to_vec()), false), ("x".into(), none.clone(), Status::Listed));
        assert_eq!(answered(Ok(b"x".to_vec()), true), ("d.sys 1000:\nx".into(), none.clone(), Status::Listed));
        let refused = "d.sys 1000:\nno 1: Are there at least 24 bytes?\n".to_string();
        assert_eq!(answered(Ok(Vec::new()), true), (refused, none.clone(), Status::Refused));
        let why = NoRecord::Unrecorded(Unrecorded::Other("a limit".into()));
        assert_eq!(answered(Err(why), true), ("d.sys 1000:\nno record: a limit\n".into(), none.clone(), Status::Refused));
        let why = NoRecord::Unrecorded(Unrecorded::Limit("501 instructions".into()));
        assert_eq!(answered(Err(why), true), ("d.sys 1000:\nno 3: 501 instructions\n".into(), none.clone(), Status::Refused));
        let why = NoRecord::Unread("gone".into());
        assert_eq!(answered(Err(why), true), (none, "cakirotu: d.sys 1000: gone\n".into(), Status::Unread));
    }
}
