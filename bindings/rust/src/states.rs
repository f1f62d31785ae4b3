//! A reader of saved states.

use crate::lists::Unreadable;

// The kinds of state words, in their top four bits.
const YEAR: u32 = 0;
const SURVEY: u32 = 13;
const POSITION: u32 = 14;
const PLACE: u32 = 15;

const NUMBER_BITS: u32 = 28;
const NUMBER_MASK: u32 = (1 << NUMBER_BITS) - 1;
const DEPTHS: u32 = 16;

/// A place in one of the tables' three orders; no row number.
#[derive(Clone, Copy, Debug, PartialEq, Eq, PartialOrd, Ord, Hash)]
pub struct Place(pub u32);

/// Where a query stands: its survey, the year that it reads, its branch, its depth, and a place for each level down to there, the last being the
/// next to look at.
///
/// ```
/// use sotjarn::{Place, State};
///
/// let state = State::read(&[0xD000_0007, 2026, 0xE000_0002, 0xF000_0000, 0xF000_0002])?;
/// assert_eq!((state.survey, state.year, state.branch, state.depth()), (7, 2026, 0, 2));
/// assert_eq!(state.places, [Place(0), Place(2)]);
/// assert!(State::read(&[0xD000_0007, 2026, 0xE000_0002, 0xF000_0000]).is_err()); // a place is missing
/// # Ok::<(), sotjarn::Unreadable>(())
/// ```
#[derive(Clone, Debug, PartialEq, Eq)]
pub struct State {
    /// The number of the survey that it was saved under.
    pub survey: u32,
    /// The year that is being read; 0 where there are no rows.
    pub year: u32,
    /// The branch, from 0.
    pub branch: u32,
    /// The places, one for each level.
    pub places: Vec<Place>,
}

impl State {
    /// The state of saved words. What it says of the query is the engine's to test, with every turn; here only the form is read.
    pub fn read(words: &[u32]) -> Result<State, Unreadable> {
        let (survey, year, first, places) = match words {
            [survey, year, first, places @ ..] => (survey, year, first, places),
            _ => return Err(Unreadable("a state has at least a survey's word, a year's and a position")),
        };
        if survey >> NUMBER_BITS != SURVEY {
            return Err(Unreadable("a state begins with a word of kind 13"));
        }
        if year >> NUMBER_BITS != YEAR {
            return Err(Unreadable("a state's second word is of kind 0"));
        }
        if first >> NUMBER_BITS != POSITION {
            return Err(Unreadable("a state's third word is of kind 14"));
        }
        if places.iter().any(|word| word >> NUMBER_BITS != PLACE) {
            return Err(Unreadable("a state's places are words of kind 15"));
        }
        let (branch, depth) = ((first & NUMBER_MASK) / DEPTHS, first % DEPTHS);
        if places.len() != depth as usize {
            return Err(Unreadable("a state has as many places as its depth says"));
        }
        Ok(State {
            survey: survey & NUMBER_MASK,
            year: year & NUMBER_MASK,
            branch,
            places: places.iter().map(|word| Place(word & NUMBER_MASK)).collect(),
        })
    }

    /// The depth, from 1: how many levels are open.
    pub fn depth(&self) -> usize {
        self.places.len()
    }
}
