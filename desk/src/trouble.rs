//! How a command ends: its exit status, and what is said where it has not done what it was asked.

use crate::files::why;
use std::io;
use std::process::ExitCode;

/// The exit status, from best to worst.
#[derive(Clone, Copy, Debug, PartialEq, Eq, PartialOrd, Ord)]
pub enum Status {
    Good = 0,
    Refused = 1,
    Failed = 2,
}

impl From<Status> for ExitCode {
    fn from(status: Status) -> ExitCode {
        ExitCode::from(status as u8)
    }
}

#[derive(Debug)]
pub enum Trouble {
    /// The library's refusal. It is an answer, and goes where answers go.
    Refused(String),
    /// What could not be read, written or understood.
    Failed(String),
    /// Nobody reads the answer any more.
    Unheard,
}

impl Trouble {
    pub fn failed(what: impl Into<String>) -> Trouble {
        Trouble::Failed(what.into())
    }
}

/// Where an answer could not be written.
impl From<io::Error> for Trouble {
    fn from(error: io::Error) -> Trouble {
        match error.kind() {
            io::ErrorKind::BrokenPipe => Trouble::Unheard,
            _ => Trouble::Failed(format!("cannot write the answer: {}", why(&error))),
        }
    }
}
