//! `sotjarn import`, `export` and `surveys`: files into a store, a survey out of it, and what the store has.

use std::borrow::Cow;
use std::collections::HashSet;
use std::fmt::Write;

use sha2::{Digest, Sha256};
use sotjarn::{Decoded, Dictionaries, Value};

use crate::checking::told_flags;
use crate::editions::Edition;
use crate::faults::Fault;
use crate::files::File;
use crate::nquads;
use crate::rows::{Object, Row, Rows};
use crate::shown::{Table, Value as Shown};
use crate::store::{Imported, Listed, Store, Stored};
use crate::tablet::Reading;

/// What an import does with the rows of its files.
#[derive(Clone, Copy, Debug, PartialEq, Eq)]
pub enum Manner {
    /// Adds them to the current survey.
    Add,
    /// Takes them instead of it.
    Replace,
    /// Takes them away from it.
    Remove,
}

impl Manner {
    fn word(self) -> &'static str {
        match self {
            Manner::Add => "add",
            Manner::Replace => "replace",
            Manner::Remove => "remove",
        }
    }
}

/// A row by its strings, to tell whether two are the same.
type Spelled<'a> = (u16, &'a str, &'a str, Spelling<'a>);

#[derive(PartialEq, Eq, Hash)]
enum Spelling<'a> {
    Name(&'a str),
    Number(i32),
    Text(&'a str),
}

fn spelled<'r>(row: &Row, rows: &'r Rows) -> Spelled<'r> {
    let object = match row.object {
        Object::Name(id) => Spelling::Name(rows.names.get(id)),
        Object::Number(value) => Spelling::Number(value),
        Object::Text(id) => Spelling::Text(rows.texts.get(id)),
    };
    (row.year, rows.names.get(row.subject), rows.names.get(row.predicate), object)
}

/// A row of the store as it was written: what its words stand for.
fn decoded<'a>(words: &[u32], both: &Dictionaries<'a>) -> Option<[Decoded<'a>; 4]> {
    let values: Option<Vec<Decoded>> = words.iter().map(|&word| both.decode(Value::read(word)?)).collect();
    values?.try_into().ok()
}

/// The rows of a stored edition, behind those that `rows` has.
fn read_stored<'a>(stored: &'a Stored, both: &Dictionaries<'a>, rows: &mut Rows<'a>) -> Option<()> {
    for words in stored.tables.rows.chunks_exact(4) {
        let [Decoded::Number(year), Decoded::Name(subject), Decoded::Name(predicate), object] = decoded(words, both)? else {
            return None;
        };
        let object = match object {
            Decoded::Name(name) => Object::Name(rows.names.id(Cow::Borrowed(name))),
            Decoded::Number(value) => Object::Number(value),
            Decoded::Text(text) => Object::Text(rows.texts.id(Cow::Borrowed(text))),
            Decoded::Unbound => return None,
        };
        let (subject, predicate) = (rows.names.id(Cow::Borrowed(subject)), rows.names.id(Cow::Borrowed(predicate)));
        rows.rows.push(Row {
            year: u16::try_from(year).ok()?,
            subject,
            predicate,
            object,
            line: 0,
        });
    }
    Some(())
}

fn stored(edition: &Edition) -> Stored {
    let both = edition.dictionaries();
    Stored {
        name_bytes: both.names.bytes().to_vec(),
        name_ends: both.names.ends().to_vec(),
        text_bytes: both.texts.bytes().to_vec(),
        text_ends: both.texts.ends().to_vec(),
        tables: edition.tables.clone(),
    }
}

fn damaged(path: &str) -> Fault {
    Fault::Refused(format!(
        "{path}: the current survey is damaged: take the last backup, or `sotjarn surveys {path} --undo`"
    ))
}

/// The rows of the current survey and of the files, as `manner` has it.
fn together<'a>(
    former: &'a Option<Stored>,
    files: &'a [File],
    reading: &Reading,
    manner: Manner,
    path: &str,
) -> Result<Rows<'a>, Fault> {
    let mut rows = Rows::default();
    if let (Some(former), Manner::Add | Manner::Remove) = (former, manner) {
        let both = former.dictionaries().map_err(|_| damaged(path))?;
        read_stored(former, &both, &mut rows).ok_or_else(|| damaged(path))?;
    }
    let kept = rows.rows.len();
    for file in files {
        file.read(reading, &mut rows)?;
    }
    if manner == Manner::Remove {
        let gone: HashSet<Spelled> = rows.rows[kept..].iter().map(|row| spelled(row, &rows)).collect();
        let stay: Vec<Row> = rows.rows[..kept]
            .iter()
            .filter(|row| !gone.contains(&spelled(row, &rows)))
            .copied()
            .collect();
        rows.rows = stay;
    }
    Ok(rows)
}

/// Adds files to a store as a new survey, all or nothing, and says what became of them.
pub fn import(path: &str, paths: &[String], reading: &Reading, manner: Manner) -> Result<String, Fault> {
    let files: Vec<File> = paths.iter().map(|path| File::open(path)).collect::<Result<_, _>>()?;
    let mut out = String::new();
    for file in &files {
        told_flags(file, reading, &mut out)?;
    }
    let imported: Vec<Imported> = files
        .iter()
        .map(|file| Imported {
            file: &file.path,
            sha256: format!("{:x}", Sha256::digest(&file.text)),
            what: manner.word(),
        })
        .collect();
    let mut told = (0, 0);
    let survey = Store::open(path, true)?.change(&imported, |former| {
        let rows = together(&former, &files, reading, manner, path)?;
        let made = Edition::make(&rows)?;
        told = (rows.rows.len() - made.repeats.len(), made.repeats.len());
        Ok(stored(&made.edition))
    })?;
    let _ = writeln!(
        out,
        "survey {survey} of {path} has {} rows; {} repeats were dropped",
        told.0, told.1
    );
    Ok(out)
}

/// A survey as N-Quads.
pub fn export(path: &str, survey: Option<u32>) -> Result<String, Fault> {
    let stored = Store::open(path, false)?.edition(survey)?;
    let both = stored.dictionaries().map_err(|_| damaged(path))?;
    let mut out = String::new();
    for words in stored.tables.rows.chunks_exact(4) {
        let row = decoded(words, &both).ok_or_else(|| damaged(path))?;
        nquads::write(&row, &mut out);
    }
    Ok(out)
}

/// What is in a store, a line for each survey.
pub fn surveys(path: &str) -> Result<String, Fault> {
    let line = |listed: Listed| {
        let state = if listed.current { "current" } else { "former" };
        vec![
            Shown::Number(listed.survey.into()),
            Shown::Text(listed.made_at),
            Shown::Number(listed.rows as i128),
            Shown::Text(state.to_owned()),
        ]
    };
    let rows = Store::open(path, false)?.surveys()?.into_iter().map(line).collect();
    Ok(Table {
        heads: ["survey", "made", "rows", ""].map(str::to_owned).to_vec(),
        rows,
    }
    .to_string())
}

/// Makes the former survey current again, under a new number.
pub fn undo(path: &str) -> Result<String, Fault> {
    let mut store = Store::open(path, false)?;
    let former = store
        .former()?
        .ok_or_else(|| Fault::Refused(format!("{path} has no former survey to go back to")))?;
    let survey = store.change(
        &[Imported {
            file: "",
            sha256: String::new(),
            what: "undo",
        }],
        |_| Ok(former),
    )?;
    Ok(format!("survey {survey} of {path} has the rows of the former one\n"))
}

/// Lets go of former surveys.
pub fn keep(path: &str, keep: u32) -> Result<String, Fault> {
    let gone = Store::open(path, false)?.keep(keep)?;
    Ok(format!("{gone} surveys were let go\n"))
}
