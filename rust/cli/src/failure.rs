//! Why the program ends without doing what it was asked to.

use crate::command::COMMANDS;
use std::fmt;
use std::io;
use std::path::PathBuf;
use std::process::ExitCode;

/// What went wrong.
#[derive(Debug)]
pub enum Failure {
    /// The program was called in a way that it doesn't have.
    Usage(String),
    /// A file can't be read.
    Unread(PathBuf, io::Error),
    /// The engine refused the input; this says why and where.
    Refused(String),
    /// Standard output doesn't take what is printed.
    Unprinted(io::Error),
}

impl Failure {
    /// The status that the program ends with.
    pub fn exit_code(&self) -> ExitCode {
        match self {
            Failure::Unread(..) | Failure::Refused(_) | Failure::Unprinted(_) => ExitCode::from(1),
            Failure::Usage(_) => ExitCode::from(2),
        }
    }
}

impl fmt::Display for Failure {
    fn fmt(&self, out: &mut fmt::Formatter<'_>) -> fmt::Result {
        match self {
            Failure::Usage(why) => {
                writeln!(out, "shelf-cli: {why}")?;
                for command in &COMMANDS {
                    writeln!(out, "  {}", command.usage())?;
                }
                write!(out, "  shelf-cli --help")
            }
            Failure::Unread(file, why) => {
                write!(out, "shelf-cli: {} can't be read: {why}", file.display())
            }
            Failure::Refused(shown) => write!(out, "{shown}"),
            Failure::Unprinted(why) => write!(out, "shelf-cli: nothing more is printed: {why}"),
        }
    }
}
