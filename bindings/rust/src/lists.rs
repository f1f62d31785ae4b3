//! A reader of turns' lists and merged lists, and the list that a client keeps.

use std::error::Error;
use std::fmt;

use crate::calls::{merge, report, REGISTERS, REPORT_WORDS};
use crate::plans::{Plan, PlanEnding, TOTALS_WORDS};
use crate::refusals::Refusal;
use crate::registers::read_registers;
use crate::terms::{Value, UNBOUND};

/// Words that are no state, no list of a plan or no report, and why.
#[derive(Clone, Copy, Debug, PartialEq, Eq, Hash)]
pub struct Unreadable(pub(crate) &'static str);

impl fmt::Display for Unreadable {
    fn fmt(&self, f: &mut fmt::Formatter<'_>) -> fmt::Result {
        f.write_str(self.0)
    }
}

impl Error for Unreadable {}

/// A delivered row: a value for each column.
pub type Row = Vec<Value>;

/// A group's record.
///
/// Without a group variable a finished query has one always, which has no keys: its total. Where no row was delivered it is that of
/// nothing, `rows` and `numbers` and `sum` 0, `least` and `greatest` none. Of groups by variables none has 0 rows.
#[derive(Clone, Debug, PartialEq, Eq)]
pub struct Group {
    /// The values of the group variables.
    pub keys: Vec<Value>,
    /// The rows of the group; 0 in the total of nothing alone.
    pub rows: u64,
    /// Those of them whose measured value is a number.
    pub numbers: u64,
    /// The sum of these numbers, which may be below zero.
    pub sum: i64,
    /// The least of them, if there is one.
    pub least: Option<i32>,
    /// The greatest of them, if there is one.
    pub greatest: Option<i32>,
}

/// What a list holds, by the plan's ending.
#[derive(Clone, Debug, PartialEq, Eq)]
pub enum List {
    /// Rows, of a row query or a best-of query.
    Rows(Vec<Row>),
    /// Groups, in ascending order of their keys. An unfinished query may have none; a finished one without group variables has one.
    Groups(Vec<Group>),
    /// All registers; of an empty list each is 0.
    Registers([u32; REGISTERS]),
}

/// Two words, the low one first.
fn wide(words: &[u32]) -> u64 {
    u64::from(words[0]) | u64::from(words[1]) << 32
}

fn values(words: &[u32]) -> Result<Vec<Value>, Unreadable> {
    words
        .iter()
        .map(|&word| Value::read(word).ok_or(Unreadable("a row or a key has a variable in it")))
        .collect()
}

/// A group's least or greatest number.
fn bound(word: u32) -> Result<Option<i32>, Unreadable> {
    match Value::read(word) {
        Some(Value::Number(value)) => Ok(Some(value)),
        _ if word == UNBOUND => Ok(None),
        _ => Err(Unreadable("a group's least and greatest are numbers or unbound")),
    }
}

fn group(record: &[u32]) -> Result<Group, Unreadable> {
    let (keys, totals) = record.split_at(record.len() - TOTALS_WORDS);
    Ok(Group {
        keys: values(keys)?,
        rows: wide(&totals[0..2]),
        numbers: wide(&totals[2..4]),
        sum: wide(&totals[4..6]) as i64,
        least: bound(totals[6])?,
        greatest: bound(totals[7])?,
    })
}

/// The parts of a list, each of `width` words.
fn parts(list: &[u32], width: usize) -> Result<std::slice::ChunksExact<'_, u32>, Unreadable> {
    if width == 0 || list.len() % width != 0 {
        return Err(Unreadable("a list is made of whole rows or records"));
    }
    Ok(list.chunks_exact(width))
}

/// The rows of a list with so many columns.
///
/// ```
/// use sotjarn::{read_rows, Value};
///
/// let rows = read_rows(&[2, 0x4000_0136, 3, 0xC000_0000], 2)?;
/// assert_eq!(rows, [[Value::Name(2), Value::Number(310)], [Value::Name(3), Value::Unbound]]);
/// # Ok::<(), sotjarn::Unreadable>(())
/// ```
pub fn read_rows(list: &[u32], columns: usize) -> Result<Vec<Row>, Unreadable> {
    parts(list, columns)?.map(values).collect()
}

/// The groups of a list with so many group variables.
///
/// ```
/// use sotjarn::read_groups;
///
/// let groups = read_groups(&[3, 0, 3, 0, 665, 0, 0x4000_002D, 0x4000_0136], 0)?;
/// assert_eq!((groups[0].rows, groups[0].numbers, groups[0].sum), (3, 3, 665));
/// assert_eq!((groups[0].least, groups[0].greatest), (Some(45), Some(310)));
///
/// let shrunk = read_groups(&[2, 0, 2, 0, 0xFFFF_FFFF, 0xFFFF_FFFF, 0x7FFF_FFFB, 0x4000_0004], 0)?; // i-5 and i4
/// assert_eq!((shrunk[0].sum, shrunk[0].least, shrunk[0].greatest), (-1, Some(-5), Some(4)));
///
/// let nothing = read_groups(&[0, 0, 0, 0, 0, 0, sotjarn::UNBOUND, sotjarn::UNBOUND], 0)?; // the total of a felled stand
/// assert_eq!((nothing[0].rows, nothing[0].least, nothing[0].greatest), (0, None, None));
/// # Ok::<(), sotjarn::Unreadable>(())
/// ```
pub fn read_groups(list: &[u32], keys: usize) -> Result<Vec<Group>, Unreadable> {
    parts(list, keys.saturating_add(TOTALS_WORDS))?.map(group).collect()
}

impl Plan {
    /// What a list that this plan made holds.
    pub fn read(&self, list: &[u32]) -> Result<List, Unreadable> {
        match self.ending() {
            PlanEnding::Rows(rows) | PlanEnding::Top { rows, .. } => read_rows(list, rows.len()).map(List::Rows),
            PlanEnding::Group { by, .. } => read_groups(list, by.len()).map(List::Groups),
            PlanEnding::Registers(_) => read_registers(list).map(List::Registers),
        }
    }
}

/// The list that a client keeps of a query, from none at first: each turn's list is taken once, in order. Lists that come in another order are for
/// [`Late`](crate::Late).
///
/// ```
/// use sotjarn::{Branch, Kept, Plan, Term, Value, Variable};
///
/// let size = Variable(0);
/// let branch = Branch::new().pattern(Variable(1), Term::Name(12), size);
/// let plan = Plan::builder().branch(branch).group([], size)?;
/// let mut kept = Kept::new(&plan);
/// kept.take(&[1, 0, 1, 0, 45, 0, 0x4000_002D, 0x4000_002D])?;
/// kept.take(&[2, 0, 2, 0, 620, 0, 0x4000_0136, 0x4000_0136])?;
/// assert_eq!(kept.words(), [3, 0, 3, 0, 665, 0, 0x4000_002D, 0x4000_0136]);
/// # Ok::<(), Box<dyn std::error::Error>>(())
/// ```
#[derive(Clone, Debug, PartialEq, Eq)]
pub struct Kept<'p> {
    plan: &'p Plan,
    words: Vec<u32>,
}

impl<'p> Kept<'p> {
    /// An empty list.
    pub fn new(plan: &'p Plan) -> Kept<'p> {
        Kept { plan, words: Vec::new() }
    }

    /// A list that was stored: the words that [`Kept::words`] gave. Refused by 12 where no turns of this plan make such a list.
    ///
    /// ```
    /// use sotjarn::{Branch, Kept, Plan, Refusal, Term, Variable};
    ///
    /// let size = Variable(0);
    /// let plan = Plan::builder().branch(Branch::new().pattern(Variable(1), Term::Name(12), size)).group([], size)?;
    /// let stored = vec![1, 0, 1, 0, 45, 0, 0x4000_002D, 0x4000_002D];
    /// assert_eq!(Kept::from_words(&plan, stored[..7].to_vec()), Err(Refusal::MergedLists));
    /// let mut kept = Kept::from_words(&plan, stored)?;
    /// kept.take(&[2, 0, 2, 0, 620, 0, 0x4000_0136, 0x4000_0136])?;
    /// assert_eq!(kept.words()[4], 665);
    /// # Ok::<(), Box<dyn std::error::Error>>(())
    /// ```
    pub fn from_words(plan: &'p Plan, words: Vec<u32>) -> Result<Kept<'p>, Refusal> {
        let mut kept = Kept { plan, words };
        match plan.ending() {
            PlanEnding::Rows(_) => kept.list().map(drop).map_err(|_| Refusal::MergedLists)?,
            PlanEnding::Registers(_) => report(kept.words(), kept.words().len(), &mut [0; REPORT_WORDS]).map(drop)?, // no turn's list is empty
            _ => kept.take(&[])?, // a list merged with none is itself
        }
        Ok(kept)
    }

    /// Takes a turn's list: joined for a row query, merged for any other. A refused one changes nothing.
    pub fn take(&mut self, list: &[u32]) -> Result<(), Refusal> {
        if let PlanEnding::Rows(_) = self.plan.ending() {
            self.words.extend_from_slice(list);
            return Ok(());
        }
        let kept = self.words.len();
        self.words.resize(kept + list.len(), 0);
        let merged = merge(self.plan.words(), &mut self.words, kept, list);
        self.words.truncate(*merged.as_ref().unwrap_or(&kept));
        merged.map(|_| ())
    }

    /// The words kept.
    pub fn words(&self) -> &[u32] {
        &self.words
    }

    pub(crate) fn into_words(self) -> Vec<u32> {
        self.words
    }

    /// What they hold.
    pub fn list(&self) -> Result<List, Unreadable> {
        self.plan.read(&self.words)
    }

    /// The threshold that may go with the next turn: the last row of a full best-of list, else none.
    pub fn threshold(&self) -> &[u32] {
        match self.plan.ending() {
            PlanEnding::Top { .. } if !self.words.is_empty() && self.words.len() == self.plan.least_output() => {
                &self.words[self.words.len() - self.plan.width()..]
            }
            _ => &[],
        }
    }
}
