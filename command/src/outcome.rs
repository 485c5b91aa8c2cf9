//! What a command came to, and the exit status that says it.

use std::fmt;
use std::io;

/// The exit status of a usage or input/output error.
pub const TROUBLE: i32 = 2;

#[derive(Clone, Copy, Debug, PartialEq, Eq)]
pub enum Outcome {
    /// Accepted; for a run, the memories agree.
    Good,
    /// Refused, or the memories differ.
    Bad,
    /// Some of several files could not be read; each was named when it was met.
    Unread,
}

impl Outcome {
    pub fn status(self) -> i32 {
        match self {
            Outcome::Good => 0,
            Outcome::Bad => 1,
            Outcome::Unread => TROUBLE,
        }
    }
}

#[derive(Debug)]
pub enum Failure {
    Usage(String),
    Io(String, io::Error),
}

impl Failure {
    /// A usage error says which help says how it is done: that of a command, or that of all.
    pub fn with_help(self, command: &str) -> Failure {
        match self {
            Failure::Usage(what) => Failure::Usage(format!("{what} (vempaldi {command}--help says how)")),
            other => other,
        }
    }
}

impl fmt::Display for Failure {
    fn fmt(&self, out: &mut fmt::Formatter<'_>) -> fmt::Result {
        match self {
            Failure::Usage(what) => write!(out, "{what}"),
            Failure::Io(name, error) if name.is_empty() => write!(out, "'': {error}"),
            Failure::Io(name, error) => write!(out, "{name}: {error}"),
        }
    }
}
