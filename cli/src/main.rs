//! `cakirotu`: from a driver file to listings, rows and the keyer's table. What is proved begins at the record; this command is tested.

mod args;
mod columns;
mod completions;
mod explain;
mod from_sheet;
mod input;
mod keyer;
#[cfg(test)]
mod manual;
mod many;
mod printed;
mod quoting;
mod record;
mod recorder;
mod sheet;
mod status;

use std::io;
use std::process::ExitCode;

use args::{Command, Line};
use clap::Parser;
use many::{Answer, Empty};
use status::Status;

fn main() -> ExitCode {
    match run(Line::parse().command) {
        Ok(status) => status.into(),
        Err(e) => {
            // Whoever reads the output has seen enough, as in `cakirotu list folder | head`.
            if e.kind() != io::ErrorKind::BrokenPipe {
                many::complain(&format!("cakirotu: standard output: {e}\n"));
            }
            Status::Unread.into()
        }
    }
}

fn run(command: Command) -> io::Result<Status> {
    match command {
        Command::List(sources) => many::print_each(&sources, Empty::Named, &printed::page),
        Command::Rows(sources) => many::print_each(&sources, Empty::Named, &printed::rows),
        Command::Keyer { call, register, sources } => keyer::keyer(&call, &register, &sources),
        Command::Columns { back, output, sources } => columns::columns(back, output.as_deref(), &sources),
        Command::Explain { number } => written(explained(number)),
        Command::Record { driver, output } => written(record::record(&driver, &output)),
        Command::FromSheet { file } => written(from_sheet::from_sheet(&file)),
        Command::Sheet(sources) => written(sheet::sheet(&sources)),
        Command::Completions { shell } => written(completions::completions(shell)),
    }
}

fn explained(number: Option<u8>) -> Answer {
    match explain::explain(number) {
        Ok(text) => Answer { out: text.into_bytes(), err: String::new(), status: Status::Listed },
        Err(why) => Answer::unread("explain", &why),
    }
}

fn written(answer: Answer) -> io::Result<Status> {
    many::write(&answer)?;
    Ok(answer.status)
}
