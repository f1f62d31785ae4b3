//! Tables: lent, made from rows in any order, and those that an adviser may see; and a survey, which is tables under a number.

use std::error::Error;
use std::fmt;

use crate::calls::{grow, make, view, MOST_ROWS, MOST_STEMS};
use crate::refusals::Refusal;
use crate::terms::{Term, TooLarge};
use crate::uploads::{read_report, Dropped, Reason};

/// The words of a row.
const ROW_WORDS: usize = 4;

/// The tables of a call, lent: rows of a year and three terms, and the two further orders as lists of row numbers.
#[derive(Clone, Copy, Debug, PartialEq, Eq)]
pub struct Tables<'a> {
    /// Four words a row (year, subject, predicate, object), in ascending order.
    pub rows: &'a [u32],
    /// Row numbers by year, predicate, object, subject.
    pub pos: &'a [u32],
    /// Row numbers by year, object, subject, predicate.
    pub osp: &'a [u32],
}

impl<'a> Tables<'a> {
    /// These tables under a survey's number.
    pub fn survey(self, number: u32) -> Survey<'a> {
        Survey { tables: self, number }
    }
}

/// A survey, lent: tables, and the number that they stand under. A query runs over a survey, and its saved state is of that survey alone:
/// under another number it is refused ([`Refusal::Survey`]). Tables under one number have to be the same, so each upload gets a number of
/// its own, and so do the tables that an adviser sees.
///
/// ```
/// use sotjarn::{Plan, Query, Refusal, TableWords, Term::Name, Variable};
///
/// let stems = |count| (1..=count).map(|stem| [Name(stem), Name(10), Name(100)]);
/// let (yesterday, today) = (TableWords::of_year(2026, stems(3))?, TableWords::of_year(2026, stems(4))?);
/// let plan = Plan::builder().branch(sotjarn::Branch::new().pattern(Variable(0), Name(10), Name(100))).rows([Variable(0)])?;
/// let mut query = Query::open(yesterday.survey(20), plan.words())?;
/// query.turn(2, &[], &mut [0; 2])?;
///
/// let mut mixed = Query::load(today.survey(21), plan.words(), query.state());
/// assert_eq!(mixed.turn(2, &[], &mut [0; 2]), Err(Refusal::Survey));
/// # Ok::<(), Box<dyn std::error::Error>>(())
/// ```
#[derive(Clone, Copy, Debug, PartialEq, Eq)]
pub struct Survey<'a> {
    /// The tables.
    pub tables: Tables<'a>,
    /// Their number: 28 bits, below [`SURVEYS`](crate::SURVEYS).
    pub number: u32,
}

/// The words of tables, made from rows in any order.
///
/// ```
/// use sotjarn::{Term::Name, Term::Number, TableWords};
///
/// let made = TableWords::from_rows([
///     [Number(2026), Name(2), Name(12), Number(310)],
///     [Number(2026), Name(1), Name(12), Number(45)],
///     [Number(2025), Name(1), Name(10), Name(100)],
/// ])?;
/// assert_eq!(made.rows[..8], [0x4000_07E9, 1, 10, 100, 0x4000_07EA, 1, 12, 0x4000_002D]);
/// assert_eq!(made.tables().pos, [0, 1, 2]);
/// # Ok::<(), sotjarn::RowFault>(())
/// ```
#[derive(Clone, Debug, Default, PartialEq, Eq)]
pub struct TableWords {
    /// Four words a row, the year first, in ascending order.
    pub rows: Vec<u32>,
    /// Row numbers by year, predicate, object, subject.
    pub pos: Vec<u32>,
    /// Row numbers by year, object, subject, predicate.
    pub osp: Vec<u32>,
}

/// Why rows make no tables.
#[derive(Clone, Copy, Debug, PartialEq, Eq, Hash)]
pub enum RowFault {
    /// A term's value is above 30 bits.
    TooLarge(TooLarge),
    /// The row at this place, from 0, has a year that is no number from 1 to 9,999, a subject or predicate that is no name, or a variable
    /// as object.
    WrongKind(usize),
    /// The engine refuses them all: there are more than 65,536.
    Refused(Refusal),
}

impl fmt::Display for RowFault {
    fn fmt(&self, f: &mut fmt::Formatter<'_>) -> fmt::Result {
        match self {
            RowFault::TooLarge(fault) => fault.fmt(f),
            RowFault::WrongKind(place) => write!(
                f,
                "the row at {place} has a field of a wrong kind: a year is a number from 1 to 9,999, subject and predicate are names, an \
                 object is no variable"
            ),
            RowFault::Refused(fault) => fault.fmt(f),
        }
    }
}

impl Error for RowFault {}

impl From<TooLarge> for RowFault {
    fn from(fault: TooLarge) -> RowFault {
        RowFault::TooLarge(fault)
    }
}

impl From<Refusal> for RowFault {
    fn from(fault: Refusal) -> RowFault {
        RowFault::Refused(fault)
    }
}

impl TableWords {
    /// Makes tables from an upload, four words a row in any order, by the engine's call ([`make`]), and gives them with what was dropped,
    /// in upload order. Refused by 15.
    ///
    /// ```
    /// use sotjarn::{Dropped, Reason, Refusal, TableWords};
    ///
    /// let upload = [[2, 10, 100], [0x8000_0001, 10, 100], [1, 10, 100], [2, 10, 100]]; // n2, t1 as subject, n1, and n2 again
    /// let upload = upload.map(|[s, p, o]| [0x4000_07EA, s, p, o]).concat(); // in 2026
    /// let (made, dropped) = TableWords::make(&upload)?;
    /// assert_eq!(made.rows, [0x4000_07EA, 1, 10, 100, 0x4000_07EA, 2, 10, 100]);
    /// let (wrong_kind, repeat) = (Dropped { place: 1, reason: Reason::WrongKind }, Dropped { place: 3, reason: Reason::Repeat });
    /// assert_eq!(dropped, [wrong_kind, repeat]);
    /// assert_eq!(TableWords::make(&upload[..5]), Err(Refusal::UploadLength));
    /// # Ok::<(), Refusal>(())
    /// ```
    pub fn make(upload: &[u32]) -> Result<(TableWords, Vec<Dropped>), Refusal> {
        let rows = (upload.len() / ROW_WORDS).min(MOST_ROWS);
        let mut made = TableWords {
            rows: vec![0; ROW_WORDS * rows],
            pos: vec![0; rows],
            osp: vec![0; rows],
        };
        let mut report = vec![0; 2 * rows];
        let words = make(upload, &mut made.rows, &mut made.pos, &mut made.osp, &mut report)?;
        made.rows.truncate(words.rows_words);
        made.pos.truncate(words.pos_words);
        made.osp.truncate(words.osp_words);
        let dropped = read_report(&report[..words.report_words]).expect("the engine writes a report of its own form");
        Ok((made, dropped))
    }

    /// Makes tables from rows in any order, by the engine's call. Repeats are left out. A row of wrong kinds is a fault here:
    /// [`TableWords::make`] drops it and says so.
    pub fn from_rows(rows: impl IntoIterator<Item = [Term; ROW_WORDS]>) -> Result<TableWords, RowFault> {
        let mut upload = Vec::new();
        for row in rows {
            for term in row {
                upload.push(term.word()?);
            }
        }
        let (made, dropped) = TableWords::make(&upload)?;
        match dropped.iter().find(|dropped| dropped.reason == Reason::WrongKind) {
            Some(wrong) => Err(RowFault::WrongKind(wrong.place)),
            None => Ok(made),
        }
    }

    /// Makes tables from rows of one year, in any order.
    ///
    /// ```
    /// use sotjarn::{TableWords, Term::Name, Term::Number};
    ///
    /// let made = TableWords::of_year(2026, [[Name(1), Name(10), Name(100)]])?;
    /// assert_eq!(made, TableWords::from_rows([[Number(2026), Name(1), Name(10), Name(100)]])?);
    /// # Ok::<(), sotjarn::RowFault>(())
    /// ```
    pub fn of_year(year: i32, rows: impl IntoIterator<Item = [Term; 3]>) -> Result<TableWords, RowFault> {
        TableWords::from_rows(rows.into_iter().map(|[s, p, o]| [Term::Number(year), s, p, o]))
    }

    /// The tables of the rows that a grant makes visible, by the engine's call ([`view`]): names in strictly ascending order, and the
    /// predicate of membership, which counts within its year. Refused by 1 to 4, 23 and 20.
    ///
    /// ```
    /// use sotjarn::{Refusal, TableWords, Term::Name, Term::Number};
    ///
    /// let stems = [(1, 100), (2, 101), (3, 100)].map(|(stem, stand)| [Name(stem), Name(10), Name(stand)]);
    /// let sizes = [(1, 45), (2, 310), (3, 310)].map(|(stem, size)| [Name(stem), Name(12), Number(size)]);
    /// let wood = TableWords::of_year(2026, stems.into_iter().chain(sizes))?;
    /// let seen = TableWords::view(wood.tables(), &[101], 10)?; // stand n101 is granted
    /// assert_eq!(seen, TableWords::of_year(2026, [stems[1], sizes[1]])?);
    /// assert_eq!(TableWords::view(wood.tables(), &[], 10)?, TableWords::default()); // nothing is granted
    /// assert_eq!(TableWords::view(wood.tables(), &[101, 101], 10), Err(Refusal::Grant));
    /// # Ok::<(), Box<dyn std::error::Error>>(())
    /// ```
    pub fn view(tables: Tables, grant: &[u32], membership: u32) -> Result<TableWords, Refusal> {
        let mut seen = TableWords {
            rows: vec![0; tables.rows.len()],
            pos: vec![0; tables.pos.len()],
            osp: vec![0; tables.osp.len()],
        };
        let words = view(tables, grant, membership, &mut seen.rows, &mut seen.pos, &mut seen.osp)?;
        seen.rows.truncate(words.rows_words);
        seen.pos.truncate(words.pos_words);
        seen.osp.truncate(words.osp_words);
        Ok(seen)
    }

    /// The wood of a seed with so many stems in a year, by the engine's call ([`grow`]): the same wood for whoever grows it. Refused by 24.
    ///
    /// ```
    /// use sotjarn::{Refusal, TableWords, Term::Name, Term::Number};
    ///
    /// let (first, second) = (Name(1_000_000), Name(1_000_001));
    /// let rows = [
    ///     [first, Name(10), Name(116)],
    ///     [first, Name(12), Number(220)],
    ///     [second, Name(10), Name(106)],
    ///     [second, Name(12), Number(615)],
    /// ];
    /// assert_eq!(TableWords::grow(1, 2, 2026)?, TableWords::of_year(2026, rows)?);
    /// assert_eq!(TableWords::grow(1, 0, 2026)?, TableWords::default());
    /// assert_eq!(TableWords::grow(1, 2, 0), Err(Refusal::Stems));
    /// # Ok::<(), Box<dyn std::error::Error>>(())
    /// ```
    pub fn grow(seed: u32, stems: u32, year: u32) -> Result<TableWords, Refusal> {
        let count = 2 * stems.min(MOST_STEMS) as usize;
        let mut grown = TableWords {
            rows: vec![0; ROW_WORDS * count],
            pos: vec![0; count],
            osp: vec![0; count],
        };
        grow(seed, stems, year, &mut grown.rows, &mut grown.pos, &mut grown.osp)?;
        Ok(grown)
    }

    /// The tables, to lend to a call.
    pub fn tables(&self) -> Tables<'_> {
        Tables {
            rows: &self.rows,
            pos: &self.pos,
            osp: &self.osp,
        }
    }

    /// The tables under a survey's number, for a query.
    pub fn survey(&self, number: u32) -> Survey<'_> {
        self.tables().survey(number)
    }
}
