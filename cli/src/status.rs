//! The exit status: the worst of what happened.

use std::process::ExitCode;

#[derive(Clone, Copy, Debug, PartialEq, Eq, PartialOrd, Ord)]
pub enum Status {
    /// Everything was listed.
    Listed = 0,
    /// Something was refused, or has no record.
    Refused = 1,
    /// Something could not be read or written.
    Unread = 2,
}

impl From<Status> for ExitCode {
    fn from(status: Status) -> ExitCode {
        ExitCode::from(status as u8)
    }
}
