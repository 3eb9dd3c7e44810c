//! The exit status.
use std::process::ExitCode;

/// What the program ends with; of several the largest.
#[derive(Clone, Copy, Debug, PartialEq, Eq, PartialOrd, Ord)]
pub enum Status {
    /// All was accepted.
    Accepted = 0,
    /// Something was refused.
    Refused = 1,
    /// Bad usage, or a file that cannot be read or written.
    Failed = 2,
}

impl From<Status> for ExitCode {
    fn from(status: Status) -> ExitCode {
        ExitCode::from(status as u8)
    }
}
