//! What ends a command, or its work on one file, with status 2.
use crate::usage::Status;
use std::fmt;
use std::io::{self, Write};

/// A failure. Refused packets and skipped bytes are none: they are what a command tells.
#[derive(Debug)]
pub enum Failure {
    /// The words of the command line are not right.
    Usage(String),
    /// A recording could not be opened or read. The others can be looked at all the same.
    Input { name: String, what: &'static str, error: io::Error },
    /// A file or a folder could not be made or written.
    Made { name: String, what: &'static str, error: io::Error },
    /// Standard output could not be written. Nothing more can be told.
    Output(io::Error),
    /// Another file's work has failed in such a way that this one's is no longer asked for.
    Stopped,
}

impl Failure {
    /// Whether no further file is to be looked at.
    pub fn is_final(&self) -> bool {
        !matches!(self, Failure::Input { .. })
    }

    /// Says it, and ends the process at once.
    pub fn end(&self, command: &str) -> ! {
        let _ = writeln!(io::stderr(), "gmti {command}: {self}");
        std::process::exit(Status::Failed as i32)
    }
}

impl fmt::Display for Failure {
    fn fmt(&self, f: &mut fmt::Formatter<'_>) -> fmt::Result {
        match self {
            Failure::Usage(words) => f.write_str(words),
            Failure::Input { name, what, error } | Failure::Made { name, what, error } => write!(f, "{name}: {what}: {}", Plain(error)),
            Failure::Output(error) => write!(f, "standard output is cut: {}", Plain(error)),
            Failure::Stopped => f.write_str("stopped"),
        }
    }
}

/// An error of the system in its own words, without the number that Rust adds to them.
pub struct Plain<'e>(pub &'e io::Error);

impl fmt::Display for Plain<'_> {
    fn fmt(&self, f: &mut fmt::Formatter<'_>) -> fmt::Result {
        let words = self.0.to_string();
        f.write_str(words.split(" (os error").next().unwrap_or(&words))
    }
}
