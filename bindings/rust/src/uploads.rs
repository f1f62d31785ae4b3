//! A reader of the report that making tables writes.

use std::fmt;

use crate::lists::Unreadable;

/// The words of a report for each dropped row.
const DROPPED_WORDS: usize = 2;

/// Why a row of an upload was dropped.
#[derive(Clone, Copy, Debug, PartialEq, Eq, PartialOrd, Ord, Hash)]
#[repr(u32)]
pub enum Reason {
    /// Its year is no number from 1 to 9,999, its subject or predicate is no name, or its object is a variable. Tested first.
    WrongKind = 1,
    /// An earlier row is the same.
    Repeat = 2,
}

impl Reason {
    /// The code that a report has for it.
    pub fn code(self) -> u32 {
        self as u32
    }

    /// The reason of a code, if the rules have one.
    pub fn from_code(code: u32) -> Option<Reason> {
        [Reason::WrongKind, Reason::Repeat]
            .into_iter()
            .find(|reason| reason.code() == code)
    }
}

impl fmt::Display for Reason {
    fn fmt(&self, f: &mut fmt::Formatter<'_>) -> fmt::Result {
        f.write_str(match self {
            Reason::WrongKind => "wrong kind",
            Reason::Repeat => "repeat",
        })
    }
}

/// A row of an upload that was dropped: its place, and why.
#[derive(Clone, Copy, Debug, PartialEq, Eq, PartialOrd, Ord, Hash)]
pub struct Dropped {
    /// The row's place in the upload, from 0.
    pub place: usize,
    /// Why it was dropped.
    pub reason: Reason,
}

impl fmt::Display for Dropped {
    fn fmt(&self, f: &mut fmt::Formatter<'_>) -> fmt::Result {
        write!(f, "row {}: {}", self.place, self.reason)
    }
}

/// What the words of a report say: each dropped row, in upload order.
///
/// ```
/// use sotjarn::{read_report, Dropped, Reason};
///
/// let dropped = read_report(&[3, 1, 4, 2])?;
/// assert_eq!(dropped[0], Dropped { place: 3, reason: Reason::WrongKind });
/// assert_eq!(dropped[1].to_string(), "row 4: repeat");
/// assert!(read_report(&[3]).is_err() && read_report(&[3, 5]).is_err());
/// # Ok::<(), sotjarn::Unreadable>(())
/// ```
pub fn read_report(words: &[u32]) -> Result<Vec<Dropped>, Unreadable> {
    if words.len() % DROPPED_WORDS != 0 {
        return Err(Unreadable("a report has two words for each dropped row"));
    }
    let read = |pair: &[u32]| {
        Some(Dropped {
            place: pair[0] as usize,
            reason: Reason::from_code(pair[1])?,
        })
    };
    let dropped: Option<Vec<Dropped>> = words.chunks_exact(DROPPED_WORDS).map(read).collect();
    dropped.ok_or(Unreadable("a report's codes are 1 for a wrong kind and 2 for a repeat"))
}
