//! A tablet's CSV file as rows: a line is a stem (or anything else), a column a predicate.

use std::borrow::Cow;

use crate::cells::{Cell, Cells};
use crate::faults::Fault;
use crate::names::encoded;
use crate::rows::{Object, Row, Rows, StringId, LEAST_NUMBER, MOST_NUMBER};

/// The prefix of names, unless another is given.
pub const BASE: &str = "wood:";

/// The year column's head.
const YEAR: &str = "year";

/// How a file is read, beside what its header says.
#[derive(Clone, Debug, Default)]
pub struct Reading {
    /// The prefix that names get.
    pub base: Option<String>,
    /// The column that names the subject, instead of the first.
    pub subject: Option<String>,
    /// Columns whose cells are names.
    pub references: Vec<String>,
    /// Columns of decimals, as dbh_cm*10=dbh_mm.
    pub scales: Vec<String>,
    /// The year of lines that have none of their own.
    pub year: Option<u16>,
}

/// What the cells of a column are.
#[derive(Clone, Debug, PartialEq, Eq)]
enum Kind {
    Subject,
    Year,
    Reference,
    Text,
    Scaled(u32),
    Plain,
}

#[derive(Clone, Debug)]
struct Column {
    head: String,
    kind: Kind,
    predicate: StringId,
}

/// A head taken apart: dbh_cm:10=dbh_mm is dbh_cm, scaled by 10, under the name dbh_mm.
struct Head<'h> {
    name: &'h str,
    predicate: &'h str,
    kind: Kind,
}

/// A factor and a new name, as 10=dbh_mm.
fn scale(text: &str) -> Result<(u32, &str), String> {
    let (factor, name) = text.split_once('=').unwrap_or((text, ""));
    let factor: u32 = factor
        .parse()
        .ok()
        .filter(|&factor| factor >= 1)
        .ok_or_else(|| format!("{factor} is no factor: write a whole number, as in dbh_cm:10=dbh_mm"))?;
    if name.is_empty() {
        return Err(format!(
            "a scaled column needs a name that says its unit: write NAME:{factor}=NEW, as in dbh_cm:10=dbh_mm"
        ));
    }
    Ok((factor, name))
}

fn head(text: &str) -> Result<Head<'_>, String> {
    let Some((name, mark)) = text.split_once(':') else {
        let kind = if text == YEAR { Kind::Year } else { Kind::Plain };
        return Ok(Head {
            name: text,
            predicate: text,
            kind,
        });
    };
    match mark {
        "ref" => Ok(Head {
            name,
            predicate: name,
            kind: Kind::Reference,
        }),
        "text" => Ok(Head {
            name,
            predicate: name,
            kind: Kind::Text,
        }),
        _ => scale(mark).map(|(factor, predicate)| Head {
            name,
            predicate,
            kind: Kind::Scaled(factor),
        }),
    }
}

/// The columns of a header, as it marks them and as `reading` does.
fn columns<'a>(header: &[Cell<'a>], reading: &Reading, base: &str, rows: &mut Rows<'a>, file: &str) -> Result<Vec<Column>, Fault> {
    let mut columns: Vec<Column> = Vec::new();
    for cell in header {
        let fault = |what: String| Fault::at(file, cell.line, cell.column, what);
        let mut parts = head(cell.text.trim()).map_err(fault)?;
        if parts.name.is_empty() {
            return Err(fault("this column has no name: give it one in the header".to_owned()));
        }
        let scaled = reading
            .scales
            .iter()
            .find_map(|text| text.strip_prefix(parts.name)?.strip_prefix('*'));
        if let Some(text) = scaled {
            let (factor, predicate) = scale(text).map_err(fault)?;
            parts = Head {
                kind: Kind::Scaled(factor),
                predicate,
                ..parts
            };
        } else if reading.references.iter().any(|name| name == parts.name) {
            parts.kind = Kind::Reference;
        }
        if columns.iter().any(|column| column.head == parts.name) {
            return Err(fault(format!("two columns are named {}: rename one", parts.name)));
        }
        let predicate = rows.names.id(Cow::Owned(format!("{base}{}", encoded(parts.predicate))));
        columns.push(Column {
            head: parts.name.to_owned(),
            kind: parts.kind,
            predicate,
        });
    }
    let subject = match &reading.subject {
        None => 0,
        Some(name) => columns.iter().position(|column| column.head == *name).ok_or_else(|| {
            let heads: Vec<&str> = columns.iter().map(|column| column.head.as_str()).collect();
            Fault::Command(format!("{file} has no column {name}: its columns are {}", heads.join(", ")))
        })?,
    };
    columns[subject].kind = Kind::Subject;
    Ok(columns)
}

/// Whether a cell is a whole number in its shortest writing.
fn is_whole(text: &str) -> bool {
    let digits = text.strip_prefix('-').unwrap_or(text);
    match digits.as_bytes() {
        [b'0'] => text == "0",
        [b'1'..=b'9', rest @ ..] => rest.iter().all(u8::is_ascii_digit),
        _ => false,
    }
}

fn in_range(text: &str, value: Option<i64>, column: &str) -> Result<i32, String> {
    match value.filter(|value| (LEAST_NUMBER..=MOST_NUMBER).contains(value)) {
        Some(value) => Ok(value as i32),
        None => Err(format!(
            "{text} is outside of {LEAST_NUMBER} to {MOST_NUMBER}: mark the column {column}:text to keep it as text"
        )),
    }
}

/// A decimal times a factor, exactly: 31.5 by 10 is 315, and 31.55 by 10 would have to be rounded.
fn scaled(text: &str, factor: u32, point: char, column: &str) -> Result<i32, String> {
    let no_number = || format!("{text} is no number, and column {column} has decimals: mend it, or leave the cell empty");
    let unsigned = text.strip_prefix('-').unwrap_or(text);
    let (whole, part) = unsigned.split_once(point).unwrap_or((unsigned, ""));
    let digits = format!("{whole}{part}");
    if whole.is_empty() || digits.len() > 15 || !digits.bytes().all(|digit| digit.is_ascii_digit()) || unsigned.ends_with(point) {
        return Err(no_number());
    }
    let value: i64 = digits.parse().map_err(|_| no_number())?;
    let product = value.checked_mul(i64::from(factor)).ok_or_else(no_number)?;
    let unit = 10_i64.pow(part.len() as u32);
    if product % unit != 0 {
        return Err(format!(
            "{text} times {factor} is no whole number, and nothing is rounded here: mend it, or scale the column by more"
        ));
    }
    let size = product / unit;
    in_range(text, Some(if text.starts_with('-') { -size } else { size }), column)
}

/// The year of a cell.
fn year(text: &str) -> Result<u16, String> {
    text.parse()
        .ok()
        .filter(|year| is_whole(text) && (1..=9_999).contains(year))
        .ok_or_else(|| format!("{text} is no year: years go from 1 to 9999"))
}

/// Reads a file's text into `rows`. What stands wrong is told by file, line and column.
pub fn read<'a>(file: &str, text: &'a str, reading: &Reading, rows: &mut Rows<'a>) -> Result<(), Fault> {
    let base = reading.base.as_deref().unwrap_or(BASE);
    let mut cells = Cells::new(file, text);
    let point = if cells.separator() == b';' { ',' } else { '.' };
    let Some(header) = cells.next_line()? else {
        return Err(Fault::Refused(format!(
            "{file} is empty: its first line has to name the columns"
        )));
    };
    let columns = columns(&header, reading, base, rows, file)?;
    let subject_at = columns.iter().position(|column| column.kind == Kind::Subject).unwrap_or(0);
    let year_at = columns.iter().position(|column| column.kind == Kind::Year);
    while let Some(line) = cells.next_line()? {
        if line.len() != columns.len() {
            let what = format!(
                "this line has {} cells, and the header {}: mend the line, or quote cells that have the separator in them",
                line.len(),
                columns.len()
            );
            return Err(Fault::at(file, line[0].line, 1, what));
        }
        let fault = |cell: &Cell, what: String| Fault::at(file, cell.line, cell.column, what);
        let subject_cell = &line[subject_at];
        if subject_cell.text.trim().is_empty() {
            return Err(fault(
                subject_cell,
                format!("{} is empty, and names what the line is about", columns[subject_at].head),
            ));
        }
        let year = match year_at {
            Some(at) => year(line[at].text.trim()).map_err(|what| fault(&line[at], what))?,
            None => reading
                .year
                .ok_or_else(|| Fault::Refused(format!("{file} has no column year: give one, or say the year by --year")))?,
        };
        let subject = rows
            .names
            .id(Cow::Owned(format!("{base}{}", encoded(subject_cell.text.trim()))));
        for (cell, column) in line.iter().zip(&columns) {
            let trimmed = cell.text.trim();
            if trimmed.is_empty() {
                continue;
            }
            let object = match &column.kind {
                Kind::Subject | Kind::Year => continue,
                Kind::Reference => Object::Name(rows.names.id(Cow::Owned(format!("{base}{}", encoded(trimmed))))),
                Kind::Scaled(factor) => {
                    Object::Number(scaled(trimmed, *factor, point, &column.head).map_err(|what| fault(cell, what))?)
                }
                Kind::Plain if is_whole(trimmed) => {
                    Object::Number(in_range(trimmed, trimmed.parse().ok(), &column.head).map_err(|what| fault(cell, what))?)
                }
                Kind::Text | Kind::Plain => Object::Text(rows.texts.id(cell.text.clone())),
            };
            rows.rows.push(Row {
                year,
                subject,
                predicate: column.predicate,
                object,
                line: cell.line as u32,
            });
        }
    }
    Ok(())
}
