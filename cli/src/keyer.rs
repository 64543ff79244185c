//! `keyer`: the commands that a call sends, as a table.

use std::io;
use std::sync::atomic::{AtomicBool, Ordering};

use cakirotu::Names;

use crate::args::Sources;
use crate::many::{self, Empty};
use crate::printed;
use crate::status::Status;

/// Prints the table of every record; of several, those that have no row are left out. That there is no row at all is said on standard error.
pub fn keyer(call: &str, register: &str, sources: &Sources) -> io::Result<Status> {
    let names = Names { call: call.as_bytes(), register: register.as_bytes() };
    let found = AtomicBool::new(false);
    let status = many::print_each(sources, Empty::LeftOut, &|record| {
        let table = printed::table(record, names)?;
        found.fetch_or(!table.is_empty(), Ordering::Relaxed);
        Ok(table)
    })?;
    if !found.into_inner() && !call.is_empty() {
        many::complain(&format!("cakirotu: no line that was listed calls {call}\n"));
    }
    Ok(status)
}
