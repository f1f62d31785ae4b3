//! `sotjarn check`: what files have, and what in them is to be looked at.

use std::collections::BTreeSet;
use std::fmt::Write;

use crate::editions::Edition;
use crate::faults::Fault;
use crate::files::File;
use crate::flags::{flags, Flag};
use crate::rows::{Object, Row, Rows};
use crate::shown::last_part;
use crate::tablet::Reading;

/// The flags of each file that are written out.
const MOST_FLAGS: usize = 20;

/// A value as the file has it.
fn value(row: &Row, rows: &Rows) -> String {
    match row.object {
        Object::Name(id) => last_part(rows.names.get(id)).into_owned(),
        Object::Number(number) => number.to_string(),
        Object::Text(id) => format!("{:?}", rows.texts.get(id)),
    }
}

fn told(flag: &Flag, rows: &Rows, path: &str) -> String {
    let name = |id| last_part(rows.names.get(id));
    match flag {
        Flag::TwoValues { row, earlier } => format!(
            "{path}, line {}: {} has {} {} here and {} in line {}",
            row.line,
            name(row.subject),
            name(row.predicate),
            value(row, rows),
            value(earlier, rows),
            earlier.line
        ),
        Flag::FarOutside { row, median } => {
            format!(
                "{path}, line {}: {} has {} {}, and the median is {median}",
                row.line,
                name(row.subject),
                name(row.predicate),
                value(row, rows)
            )
        }
    }
}

/// What a file has, in words.
fn summary(file: &File, reading: &Reading, out: &mut String) -> Result<(), Fault> {
    let mut rows = Rows::default();
    file.read(reading, &mut rows)?;
    let made = Edition::make(&rows)?;
    let subjects: BTreeSet<u32> = rows.rows.iter().map(|row| row.subject).collect();
    let years: BTreeSet<u16> = rows.rows.iter().map(|row| row.year).collect();
    let years: Vec<String> = years.iter().map(u16::to_string).collect();
    let (kept, repeats) = (rows.rows.len() - made.repeats.len(), made.repeats.len());
    let _ = writeln!(
        out,
        "{}: {kept} rows of {} subjects, years {}; {repeats} repeats",
        file.path,
        subjects.len(),
        years.join(", ")
    );
    write_flags(&rows, &file.path, out);
    Ok(())
}

/// What in some rows is to be looked at, a line each.
fn write_flags(rows: &Rows, path: &str, out: &mut String) {
    let all = flags(rows);
    for flag in all.iter().take(MOST_FLAGS) {
        let _ = writeln!(out, "  look at {}", told(flag, rows, path));
    }
    if all.len() > MOST_FLAGS {
        let _ = writeln!(out, "  and {} more", all.len() - MOST_FLAGS);
    }
}

/// How many rows a file has, and what in it is to be looked at.
#[cfg(feature = "store")]
pub fn told_flags(file: &File, reading: &Reading, out: &mut String) -> Result<(), Fault> {
    let mut rows = Rows::default();
    file.read(reading, &mut rows)?;
    let _ = writeln!(out, "{}: {} rows were read", file.path, rows.rows.len());
    write_flags(&rows, &file.path, out);
    Ok(())
}

/// Reads the files, and says what is in each of them.
pub fn check(paths: &[String], reading: Reading) -> Result<String, Fault> {
    let mut out = String::new();
    for path in paths {
        summary(&File::open(path)?, &reading, &mut out)?;
    }
    Ok(out)
}
