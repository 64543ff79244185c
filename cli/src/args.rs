//! The command line.

use std::path::PathBuf;

use clap::{Args, Parser, Subcommand, ValueEnum};

/// From a driver file to listings, rows and the keyer's table.
///
/// FILE is a record, a folder of records (*.rec), a driver (a PE file) or - for standard input. Exit status: 0 everything was listed,
/// 1 something was refused, 2 something could not be read or written.
#[derive(Debug, Parser)]
#[command(name = "cakirotu", version, about, long_about)]
pub struct Line {
    #[command(subcommand)]
    pub command: Command,
}

#[derive(Debug, Subcommand)]
pub enum Command {
    /// Lists routines as pseudocode
    List(Sources),
    /// Writes listings as rows for a spreadsheet, which can be listed again (docs/SHEET.md)
    Rows(Sources),
    /// Makes the keyer's table: the bytes that REGISTER is set to before each call of CALL
    Keyer {
        /// The call's name, as the listing has it
        call: String,
        /// The register or stack slot that has the command, as the listing has it
        register: String,
        #[command(flatten)]
        sources: Sources,
    },
    /// Rearranges records by columns for a store, or back
    Columns {
        /// The way back: FILE was written by columns; of a folder the files *.columns are taken
        #[arg(long)]
        back: bool,
        /// Writes a file for each record into this folder, instead of one to standard output
        #[arg(short, long, value_name = "DIR")]
        output: Option<PathBuf>,
        #[command(flatten)]
        sources: Sources,
    },
    /// Says what `no N` means, or of all numbers
    Explain {
        /// The number, 1 to 19
        number: Option<u8>,
    },
    /// Records every routine of a driver, with an index
    Record {
        /// A PE32 or PE32+ file, or - for standard input
        driver: PathBuf,
        /// The folder for ADDRESS.rec of each routine and index.csv
        #[arg(short, long, value_name = "DIR")]
        output: PathBuf,
    },
    /// Makes strict rows again of a file that a spreadsheet saved
    FromSheet {
        /// What the spreadsheet saved as CSV, or - for standard input
        file: PathBuf,
    },
    /// Writes listings as one table for reading and filtering, with a heading
    Sheet(Sources),
    /// Writes what a shell reads to complete this command's words
    Completions {
        /// The shell that reads it
        #[arg(value_enum)]
        shell: Shell,
    },
}

/// The shells that completions are written for.
#[derive(Clone, Copy, Debug, ValueEnum)]
pub enum Shell {
    Bash,
    Zsh,
    Fish,
}

/// What records are taken from.
#[derive(Args, Debug)]
pub struct Sources {
    /// A record, a folder of records, a driver, or - for standard input
    #[arg(required = true, value_name = "FILE")]
    pub files: Vec<PathBuf>,
    /// Of a driver only this routine: its address in hexadecimal, or its name
    #[arg(long, value_name = "ADDRESS|NAME")]
    pub routine: Option<String>,
}

#[cfg(test)]
mod tests {
    use clap::CommandFactory;

    #[test]
    fn the_command_line_holds_together() {
        super::Line::command().debug_assert();
    }
}
