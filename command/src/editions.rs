//! An edition: rows numbered and made into tables, with both dictionaries.

use sotjarn::{Dictionaries, Kind, Names, NumberedStrings, Refusal, TableWords, Term, Texts, MOST_ROWS};

use crate::faults::Fault;
use crate::rows::{Object, Row, Rows, StringId, Strings};

/// Tables and the dictionaries of their names and texts.
#[derive(Clone, Debug)]
pub struct Edition {
    pub names: NumberedStrings<Names>,
    pub texts: NumberedStrings<Texts>,
    pub tables: TableWords,
}

/// An edition of some rows, and the rows among them that came a second time.
pub struct Made {
    pub edition: Edition,
    pub repeats: Vec<Row>,
}

/// The mark of a string that no row has.
const UNUSED: u32 = u32::MAX;

const WORD: &str = "every number here fits its word";

/// The words of a row, as an upload has them.
fn words(row: &Row, names: &[u32], texts: &[u32]) -> [u32; 4] {
    let object = match row.object {
        Object::Name(id) => Term::Name(names[id as usize]),
        Object::Number(value) => Term::Number(value),
        Object::Text(id) => Term::Text(texts[id as usize]),
    };
    let terms = [
        Term::Number(row.year.into()),
        Term::Name(names[row.subject as usize]),
        Term::Name(names[row.predicate as usize]),
        object,
    ];
    terms.map(|term| term.word().expect(WORD))
}

/// A refusal of numbering or making tables, in words for whoever reads files in.
fn told(refusal: Refusal) -> Fault {
    Fault::Refused(format!("refused by {}: {refusal}", refusal.code()))
}

/// The strings that some rows have, numbered, and each one's number by its id; those that no row has are left out.
fn numbered<K: Kind>(strings: &Strings, used: impl Iterator<Item = StringId>) -> Result<(NumberedStrings<K>, Vec<u32>), Fault> {
    let mut numbers = vec![UNUSED; strings.list().len()];
    used.for_each(|id| numbers[id as usize] = 0);
    let ids: Vec<usize> = (0..numbers.len()).filter(|&id| numbers[id] != UNUSED).collect();
    let numbered = NumberedStrings::number(ids.iter().map(|&id| &strings.list()[id])).map_err(told)?;
    for (&id, &number) in ids.iter().zip(numbered.numbers()) {
        numbers[id] = number;
    }
    Ok((numbered, numbers))
}

impl Edition {
    /// The edition of rows that were read.
    pub fn make(rows: &Rows) -> Result<Made, Fault> {
        if rows.rows.len() > MOST_ROWS {
            let what = format!(
                "{} rows are too many for one table, which holds {MOST_ROWS}: read fewer files or columns",
                rows.rows.len()
            );
            return Err(Fault::Refused(what));
        }
        let all = &rows.rows;
        let of_objects = |pick: fn(Object) -> Option<StringId>| all.iter().filter_map(move |row| pick(row.object));
        let named = of_objects(|object| if let Object::Name(id) = object { Some(id) } else { None });
        let (names, name_numbers) = numbered(
            &rows.names,
            all.iter().flat_map(|row| [row.subject, row.predicate]).chain(named),
        )?;
        let (texts, text_numbers) = numbered(
            &rows.texts,
            of_objects(|object| if let Object::Text(id) = object { Some(id) } else { None }),
        )?;
        let upload: Vec<u32> = all.iter().flat_map(|row| words(row, &name_numbers, &text_numbers)).collect();
        let (tables, dropped) = TableWords::make(&upload).map_err(told)?;
        let repeats = dropped.iter().map(|dropped| rows.rows[dropped.place]).collect();
        Ok(Made {
            edition: Edition { names, texts, tables },
            repeats,
        })
    }

    /// Both dictionaries, to show rows with their strings.
    pub fn dictionaries(&self) -> Dictionaries<'_> {
        Dictionaries {
            names: self.names.dictionary(),
            texts: self.texts.dictionary(),
        }
    }
}
