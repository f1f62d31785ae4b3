//! A store of editions in one SQLite file. An edition is whole or not there: each change is one transaction, on disk before it is told.

use std::time::Duration;

use rusqlite::{params, Connection, OptionalExtension, Transaction, TransactionBehavior};
use sotjarn::{Dictionaries, Dictionary, Refusal, TableWords};

use crate::faults::Fault;

/// The version of the schema that this program writes.
const SCHEMA: i64 = 1;

/// How long a command waits for another one that writes.
const WAIT: Duration = Duration::from_secs(60);

/// The numbers that surveys may have: below this.
const SURVEYS: i64 = sotjarn::SURVEYS as i64;

const TABLES: &str = "
    CREATE TABLE editions (
        edition INTEGER PRIMARY KEY AUTOINCREMENT,
        made_at TEXT NOT NULL DEFAULT (strftime('%Y-%m-%dT%H:%M:%SZ', 'now')),
        name_bytes BLOB NOT NULL, name_ends BLOB NOT NULL,
        text_bytes BLOB NOT NULL, text_ends BLOB NOT NULL
    ) STRICT;
    CREATE TABLE surveys (
        survey INTEGER PRIMARY KEY AUTOINCREMENT,
        edition INTEGER NOT NULL REFERENCES editions,
        row_words BLOB NOT NULL, pos_words BLOB NOT NULL, osp_words BLOB NOT NULL
    ) STRICT;
    CREATE TABLE imports (
        import INTEGER PRIMARY KEY AUTOINCREMENT,
        at TEXT NOT NULL DEFAULT (strftime('%Y-%m-%dT%H:%M:%SZ', 'now')),
        edition INTEGER NOT NULL,
        file TEXT NOT NULL, sha256 TEXT NOT NULL, what TEXT NOT NULL
    ) STRICT;
    CREATE TABLE current (only INTEGER PRIMARY KEY CHECK (only = 1), edition INTEGER NOT NULL REFERENCES editions) STRICT;
";

/// An edition as the store has it: words and bytes, as the calls take them.
#[derive(Clone, Debug, Default, PartialEq, Eq)]
pub struct Stored {
    pub name_bytes: Vec<u8>,
    pub name_ends: Vec<u32>,
    pub text_bytes: Vec<u8>,
    pub text_ends: Vec<u32>,
    pub tables: TableWords,
}

impl Stored {
    /// Its dictionaries, checked by the engine.
    pub fn dictionaries(&self) -> Result<Dictionaries<'_>, Refusal> {
        Ok(Dictionaries {
            names: Dictionary::open(&self.name_bytes, &self.name_ends)?,
            texts: Dictionary::open(&self.text_bytes, &self.text_ends)?,
        })
    }
}

/// What the store tells of a survey.
#[derive(Clone, Debug, PartialEq, Eq)]
pub struct Listed {
    pub survey: u32,
    pub edition: i64,
    pub made_at: String,
    pub rows: usize,
    pub current: bool,
}

/// A file that an edition was made of, for the log.
pub struct Imported<'i> {
    pub file: &'i str,
    pub sha256: String,
    pub what: &'i str,
}

pub struct Store {
    path: String,
    connection: Connection,
}

fn bytes_of(words: &[u32]) -> Vec<u8> {
    words.iter().flat_map(|word| word.to_le_bytes()).collect()
}

fn words_of(bytes: &[u8]) -> Option<Vec<u32>> {
    let words = bytes.chunks_exact(4);
    words.remainder().is_empty().then(|| {
        words
            .map(|word| u32::from_le_bytes([word[0], word[1], word[2], word[3]]))
            .collect()
    })
}

impl Store {
    fn fault(&self, error: rusqlite::Error) -> Fault {
        told(&self.path, error)
    }

    /// Opens a store; with `create`, a new one where there is none.
    pub fn open(path: &str, create: bool) -> Result<Store, Fault> {
        if !create && !std::path::Path::new(path).exists() {
            return Err(Fault::Command(format!(
                "{path}: there is no such store: make one by `sotjarn import {path} FILE`"
            )));
        }
        let connection = Connection::open(path).map_err(|error| told(path, error))?;
        let mut store = Store {
            path: path.to_owned(),
            connection,
        };
        store.prepare(create)?;
        Ok(store)
    }

    fn prepare(&mut self, create: bool) -> Result<(), Fault> {
        let settings = "PRAGMA journal_mode = WAL; PRAGMA synchronous = FULL; PRAGMA foreign_keys = ON;";
        self.connection
            .busy_timeout(WAIT)
            .and_then(|()| self.connection.execute_batch(settings))
            .map_err(|error| told(&self.path, error))?;
        let path = self.path.clone();
        let version = |connection: &Connection| connection.query_row("PRAGMA user_version", [], |row| row.get::<_, i64>(0));
        if version(&self.connection).map_err(|error| told(&path, error))? == 0 && create {
            let made = self.writing()?;
            let fresh = version(&made).map_err(|error| told(&path, error))? == 0;
            if fresh {
                made.execute_batch(TABLES)
                    .and_then(|()| made.pragma_update(None, "user_version", SCHEMA))
                    .map_err(|error| told(&path, error))?;
            }
            made.commit().map_err(|error| told(&path, error))?;
        }
        match version(&self.connection).map_err(|error| told(&path, error))? {
            SCHEMA => Ok(()),
            0 => Err(Fault::Command(format!("{path} is no store of sotjarn"))),
            other => Err(Fault::Command(format!(
                "{path} has schema {other}, and this program reads {SCHEMA}: take a newer program"
            ))),
        }
    }

    /// A transaction that nobody else writes beside.
    fn writing(&mut self) -> Result<Transaction<'_>, Fault> {
        let path = &self.path;
        self.connection
            .transaction_with_behavior(TransactionBehavior::Immediate)
            .map_err(|error| told(path, error))
    }

    /// Makes a new edition out of the current one, and the current one of it, in one transaction. `make` is handed the current edition, if there is one.
    pub fn change(
        &mut self,
        imported: &[Imported],
        make: impl FnOnce(Option<Stored>) -> Result<Stored, Fault>,
    ) -> Result<u32, Fault> {
        let path = self.path.clone();
        let fault = |error| told(&path, error);
        let change = self.writing()?;
        let current: Option<i64> = change
            .query_row("SELECT edition FROM current", [], |row| row.get(0))
            .optional()
            .map_err(fault)?;
        let former = current.map(|edition| read(&change, &path, edition)).transpose()?;
        let made = make(former)?;
        let survey = write(&change, &path, &made, imported)?;
        change.commit().map_err(fault)?;
        Ok(survey)
    }

    /// The edition with a survey's number, or the current one.
    pub fn edition(&self, survey: Option<u32>) -> Result<Stored, Fault> {
        let found = match survey {
            Some(number) => self
                .connection
                .query_row("SELECT edition FROM surveys WHERE survey = ?", [number], |row| row.get(0)),
            None => self.connection.query_row("SELECT edition FROM current", [], |row| row.get(0)),
        };
        match found.optional().map_err(|error| self.fault(error))? {
            Some(edition) => read(&self.connection, &self.path, edition),
            None => Err(Fault::Command(match survey {
                Some(number) => format!(
                    "{} has no survey {number}: `sotjarn surveys {}` lists them",
                    self.path, self.path
                ),
                None => format!("{} has no survey yet: import a file", self.path),
            })),
        }
    }

    /// All surveys, the oldest first.
    pub fn surveys(&self) -> Result<Vec<Listed>, Fault> {
        let text = "SELECT survey, edition, made_at, length(row_words) / 16, edition = (SELECT edition FROM current)
            FROM surveys JOIN editions USING (edition) ORDER BY survey";
        let mut asked = self.connection.prepare(text).map_err(|error| self.fault(error))?;
        let listed = asked.query_map([], |row| {
            Ok(Listed {
                survey: row.get(0)?,
                edition: row.get(1)?,
                made_at: row.get(2)?,
                rows: row.get(3)?,
                current: row.get(4)?,
            })
        });
        listed.and_then(Iterator::collect).map_err(|error| self.fault(error))
    }

    /// Lets go of all but the last `keep` surveys; the current one stays.
    pub fn keep(&mut self, keep: u32) -> Result<usize, Fault> {
        let path = self.path.clone();
        let fault = |error| told(&path, error);
        let change = self.writing()?;
        let former = "edition NOT IN (SELECT edition FROM editions ORDER BY edition DESC LIMIT ?) AND edition NOT IN (SELECT edition FROM current)";
        let gone = change
            .execute(&format!("DELETE FROM surveys WHERE {former}"), [keep])
            .map_err(fault)?;
        change
            .execute(&format!("DELETE FROM editions WHERE {former}"), [keep])
            .map_err(fault)?;
        change.commit().map_err(fault)?;
        Ok(gone)
    }

    /// The edition before the current one, which `surveys --undo` makes current again.
    pub fn former(&self) -> Result<Option<Stored>, Fault> {
        let text = "SELECT max(edition) FROM editions WHERE edition < (SELECT edition FROM current)";
        let edition: Option<i64> = self
            .connection
            .query_row(text, [], |row| row.get(0))
            .map_err(|error| self.fault(error))?;
        edition.map(|edition| read(&self.connection, &self.path, edition)).transpose()
    }
}

/// What SQLite tells, with the store's path and what to do.
fn told(path: &str, error: rusqlite::Error) -> Fault {
    use rusqlite::ErrorCode;
    let what = match error.sqlite_error_code() {
        Some(ErrorCode::NotADatabase) => "this is no store of sotjarn".to_owned(),
        Some(ErrorCode::DiskFull) => "the disk is full: nothing was changed".to_owned(),
        Some(ErrorCode::DatabaseBusy) => "another command is writing to it: try again when that one has ended".to_owned(),
        Some(ErrorCode::CannotOpen) => "it cannot be opened: is the folder there, and may this account write to it?".to_owned(),
        Some(ErrorCode::DatabaseCorrupt) => "it is damaged: take the last backup, or export what is still good".to_owned(),
        _ => error.to_string(),
    };
    Fault::Command(format!("{path}: {what}"))
}

/// Reads an edition, and refuses one whose words are damaged.
fn read(connection: &Connection, path: &str, edition: i64) -> Result<Stored, Fault> {
    let text = "SELECT name_bytes, name_ends, text_bytes, text_ends, row_words, pos_words, osp_words, survey
        FROM editions JOIN surveys USING (edition) WHERE edition = ? ORDER BY survey LIMIT 1";
    let parts: ([Vec<u8>; 7], u32) = connection
        .query_row(text, [edition], |row| {
            let parts = [
                row.get(0)?,
                row.get(1)?,
                row.get(2)?,
                row.get(3)?,
                row.get(4)?,
                row.get(5)?,
                row.get(6)?,
            ];
            Ok((parts, row.get(7)?))
        })
        .map_err(|error| told(path, error))?;
    let ([name_bytes, name_ends, text_bytes, text_ends, rows, pos, osp], survey) = parts;
    let damaged = || {
        Fault::Refused(format!(
            "{path}: survey {survey} is damaged: take the last backup, or the survey before it by `sotjarn surveys {path} --undo`"
        ))
    };
    let words = |bytes: &[u8]| words_of(bytes).ok_or_else(damaged);
    let tables = TableWords {
        rows: words(&rows)?,
        pos: words(&pos)?,
        osp: words(&osp)?,
    };
    let stored = Stored {
        name_bytes,
        name_ends: words(&name_ends)?,
        text_bytes,
        text_ends: words(&text_ends)?,
        tables,
    };
    stored.dictionaries().map_err(|_| damaged())?;
    Ok(stored)
}

/// Writes an edition under a survey's number that was never given, makes it the current one, and logs what it was made of.
fn write(change: &Transaction, path: &str, made: &Stored, imported: &[Imported]) -> Result<u32, Fault> {
    let fault = |error| told(path, error);
    let strings = params![
        made.name_bytes,
        bytes_of(&made.name_ends),
        made.text_bytes,
        bytes_of(&made.text_ends)
    ];
    change
        .execute(
            "INSERT INTO editions (name_bytes, name_ends, text_bytes, text_ends) VALUES (?, ?, ?, ?)",
            strings,
        )
        .map_err(fault)?;
    let edition = change.last_insert_rowid();
    let tables = params![
        edition,
        bytes_of(&made.tables.rows),
        bytes_of(&made.tables.pos),
        bytes_of(&made.tables.osp)
    ];
    change
        .execute(
            "INSERT INTO surveys (edition, row_words, pos_words, osp_words) VALUES (?, ?, ?, ?)",
            tables,
        )
        .map_err(fault)?;
    let survey = change.last_insert_rowid();
    let number = u32::try_from(survey).ok().filter(|_| survey < SURVEYS);
    let number =
        number.ok_or_else(|| Fault::Refused(format!("{path} has given all {SURVEYS} survey numbers: start a new store")))?;
    change
        .execute(
            "INSERT INTO current VALUES (1, ?) ON CONFLICT DO UPDATE SET edition = excluded.edition",
            [edition],
        )
        .map_err(fault)?;
    for file in imported {
        let logged = params![edition, file.file, file.sha256, file.what];
        change
            .execute(
                "INSERT INTO imports (edition, file, sha256, what) VALUES (?, ?, ?, ?)",
                logged,
            )
            .map_err(fault)?;
    }
    Ok(number)
}
