//! Stands in for what the printer takes of Rattle's standard library, over Rust's, under the same names.

use self::rt::Files;
use std::cell::{Cell, RefCell};
use std::fmt::Arguments;
use std::io::{ErrorKind, Result, Write};

pub use std::io;

pub mod fs {
    use super::rt::Files;
    use std::io::Result;

    pub struct File;

    impl File {
        /// Opens a file for reading.
        pub fn open(_: &impl Files, path: &str) -> Result<std::fs::File> {
            std::fs::File::open(path)
        }
    }
}

pub mod rt {
    /// What may open files.
    pub trait Files {}
}

/// What may write to standard output.
pub trait Print {
    fn write_all(&self, bytes: &[u8]) -> Result<()>;
}

/// What may write to standard error.
pub trait Eprint {
    fn eprintln(&self, line: Arguments) -> Result<()>;
}

macro_rules! line_to_errors {
    ($rt:expr; $($line:tt)+) => {
        $rt.eprintln(format_args!($($line)+))
    };
}
pub(crate) use line_to_errors as eprintln;

/// What a program is handed: files and the standard streams. It keeps what was last written, a line, and whether anything was said on
/// standard error.
#[derive(Default)]
pub struct HostRuntime {
    last: RefCell<Vec<u8>>,
    failed: Cell<bool>,
}

impl HostRuntime {
    pub fn last_written(&self) -> Vec<u8> {
        self.last.borrow().clone()
    }

    pub fn has_failed(&self) -> bool {
        self.failed.get()
    }
}

impl Files for HostRuntime {}

impl Print for HostRuntime {
    /// Output that cannot be written ends the program: a pipe that nobody reads any more without a word, anything else with the reason,
    /// said once.
    fn write_all(&self, bytes: &[u8]) -> Result<()> {
        let mut output = io::stdout();
        if let Err(error) = output.write_all(bytes).and_then(|()| output.flush()) {
            if error.kind() != ErrorKind::BrokenPipe {
                let _ = eprintln!(self; "turns: standard output: {error}");
            }
            std::process::exit(crate::FAILED.into())
        }
        *self.last.borrow_mut() = bytes.to_vec();
        Ok(())
    }
}

impl Eprint for HostRuntime {
    /// Writes a line, without the number that Rust puts behind the reason of an error.
    fn eprintln(&self, line: Arguments) -> Result<()> {
        self.failed.set(true);
        let line = line.to_string();
        let said = line.split(" (os error ").next().unwrap_or(&line);
        writeln!(io::stderr(), "{said}")
    }
}
