//! What stops a command, in words for whoever typed it, with the exit code that goes with it.

use std::fmt;

/// Why a command ends without an answer.
#[derive(Clone, Debug, PartialEq, Eq)]
pub enum Fault {
    /// The question or the data is refused: exit code 1.
    Refused(String),
    /// The command is wrong, or a file cannot be read or written: exit code 2.
    Command(String),
}

impl Fault {
    /// A place in a file, by its name, line and column, both from 1, and what is wrong there.
    pub fn at(file: &str, line: usize, column: usize, what: impl fmt::Display) -> Fault {
        Fault::Refused(format!("{file}, line {line}, column {column}: {what}"))
    }

    /// That a file cannot be read or written.
    pub fn file(path: &str, error: &std::io::Error) -> Fault {
        let reason = match error.kind() {
            std::io::ErrorKind::NotFound => "there is no such file".to_owned(),
            std::io::ErrorKind::PermissionDenied => "this account may not read or write it".to_owned(),
            _ => error.to_string(),
        };
        Fault::Command(format!("{path}: {reason}"))
    }

    /// The exit code of the command.
    pub fn code(&self) -> u8 {
        match self {
            Fault::Refused(_) => 1,
            Fault::Command(_) => 2,
        }
    }
}

impl fmt::Display for Fault {
    fn fmt(&self, f: &mut fmt::Formatter<'_>) -> fmt::Result {
        match self {
            Fault::Refused(message) | Fault::Command(message) => f.write_str(message),
        }
    }
}
