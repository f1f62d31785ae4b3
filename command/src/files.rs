//! Files that hold rows: CSV, N-Triples and N-Quads, told apart by their endings.

use std::fs;

use crate::faults::Fault;
use crate::nquads;
use crate::rows::Rows;
use crate::tablet::{self, Reading};

/// A file that was read whole.
pub struct File {
    pub path: String,
    pub text: String,
}

impl File {
    /// Reads a file; bytes that are no UTF-8 are told by their place.
    pub fn open(path: &str) -> Result<File, Fault> {
        let bytes = fs::read(path).map_err(|error| Fault::file(path, &error))?;
        let text = String::from_utf8(bytes).map_err(|error| {
            let good = error.utf8_error().valid_up_to();
            let before = String::from_utf8_lossy(&error.as_bytes()[..good]).into_owned();
            let line = before.matches('\n').count() + 1;
            let column = before.rsplit('\n').next().unwrap_or_default().chars().count() + 1;
            Fault::at(
                path,
                line,
                column,
                "this is no UTF-8: save the file as UTF-8, and read it again",
            )
        })?;
        Ok(File {
            path: path.to_owned(),
            text,
        })
    }

    /// Adds its rows to `rows`.
    pub fn read<'a>(&'a self, reading: &Reading, rows: &mut Rows<'a>) -> Result<(), Fault> {
        match self.path.rsplit('.').next() {
            Some("nt" | "nq") => nquads::read(&self.path, &self.text, reading.year, rows),
            _ => tablet::read(&self.path, &self.text, reading, rows),
        }
    }
}
