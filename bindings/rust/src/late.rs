//! The lists of a query's turns that come back late, or in another order than the turns were made.

use std::collections::BTreeMap;
use std::ops::Range;

use crate::lists::Kept;
use crate::plans::{Plan, PlanEnding};
use crate::refusals::Refusal;

/// The list that a client keeps of a query whose turns' lists come in any order, each known by its turn's number, from 0 on.
///
/// | ending | a list that comes |
/// |---|---|
/// | groups, registers | is merged at once: every order and grouping has the same end |
/// | rows | waits for those before it, and is joined in the order of turns |
/// | best-of | the same, merged in the order of turns; with [`Late::with_distinct_keys`] at once |
///
/// A turn's list is taken once. A second one of the same turn is thrown away, also when it is another one.
///
/// ```
/// use sotjarn::{Branch, Late, Plan, Term, Variable, UNBOUND};
///
/// let size = Variable(1);
/// let plan = Plan::builder().branch(Branch::new().pattern(Variable(0), Term::Name(12), size)).group([], size)?;
/// let mut late = Late::new(&plan);
/// late.receive(2, &[0, 0, 0, 0, 0, 0, UNBOUND, UNBOUND])?; // the last turn, which is done, comes first
/// late.receive(0, &[1, 0, 1, 0, 45, 0, 0x4000_002D, 0x4000_002D])?;
/// assert_eq!(late.in_a_row(), 1); // the second one is missing
/// assert!(late.receive(1, &[2, 0, 2, 0, 620, 0, 0x4000_0136, 0x4000_0136])?);
/// assert!(!late.receive(1, &[2, 0, 2, 0, 620, 0, 0x4000_0136, 0x4000_0136])?); // sent again, and not counted twice
/// assert_eq!(late.in_a_row(), 3);
/// assert_eq!(late.kept().words(), [3, 0, 3, 0, 665, 0, 0x4000_002D, 0x4000_0136]);
/// # Ok::<(), Box<dyn std::error::Error>>(())
/// ```
#[derive(Clone, Debug, PartialEq, Eq)]
pub struct Late<'p> {
    plan: &'p Plan,
    at_once: bool,
    kept: Kept<'p>,
    /// The first turn whose list has not come.
    next: usize,
    /// Of the turns behind it those whose lists have come, from one to before another, with the list if it waits.
    early: BTreeMap<usize, (usize, Vec<u32>)>,
}

impl<'p> Late<'p> {
    /// An empty list, for any query.
    pub fn new(plan: &'p Plan) -> Late<'p> {
        let at_once = match plan.ending() {
            PlanEnding::Rows(_) | PlanEnding::Top { .. } => false,
            PlanEnding::Group { .. } | PlanEnding::Registers(_) => true,
        };
        Late {
            plan,
            at_once,
            kept: Kept::new(plan),
            next: 0,
            early: BTreeMap::new(),
        }
    }

    /// An empty list, for a query no two of whose delivered rows are equal in all keys, as where the stem itself is the last key: best-of
    /// lists are merged at once too. Where two are equal after all, which of them comes first, or is kept, depends on the order.
    ///
    /// ```
    /// use sotjarn::{Branch, Key, Late, Plan, Term, Variable};
    ///
    /// let (stem, size) = (Variable(0), Variable(1));
    /// let branch = Branch::new().pattern(stem, Term::Name(12), size);
    /// let plan = Plan::builder().branch(branch).top(1, [stem, size], [Key::Falling(size), Key::Rising(stem)])?;
    /// let mut late = Late::with_distinct_keys(&plan);
    /// late.receive(1, &[3, 0x4000_0136])?;
    /// assert_eq!(late.kept().threshold(), [3, 0x4000_0136]); // may be sent before the first turn's list has come
    /// late.receive(0, &[2, 0x4000_0136])?;
    /// assert_eq!(late.kept().words(), [2, 0x4000_0136]);
    /// # Ok::<(), Box<dyn std::error::Error>>(())
    /// ```
    pub fn with_distinct_keys(plan: &'p Plan) -> Late<'p> {
        Late {
            at_once: !matches!(plan.ending(), PlanEnding::Rows(_)),
            ..Late::new(plan)
        }
    }

    /// Receives the list of the turn with this number. Says whether it is the first one of that turn.
    ///
    /// A refused list changes nothing, and its turn counts as one that has not come. By 13 a sum left its range in this order: receive the
    /// list again when others have come.
    pub fn receive(&mut self, turn: usize, list: &[u32]) -> Result<bool, Refusal> {
        self.receive_merged(turn..turn.saturating_add(1), list)
    }

    /// Receives one list that was merged elsewhere out of the lists of these turns, each once, by [`Kept::take`]: in the order of turns,
    /// unless any order will do. Says whether it was taken: it is not where a list of any of them has come before.
    pub fn receive_merged(&mut self, turns: Range<usize>, list: &[u32]) -> Result<bool, Refusal> {
        if turns.is_empty() || self.has_any(&turns) {
            return Ok(false);
        }
        let mut waiting = Vec::new();
        if self.at_once {
            self.kept.take(list)?;
        } else {
            waiting = Kept::from_words(self.plan, list.to_vec())?.into_words();
        }
        self.early.insert(turns.start, (turns.end, waiting));
        while let Some((end, waiting)) = self.early.remove(&self.next) {
            if !self.at_once {
                self.kept
                    .take(&waiting)
                    .expect("a list of this plan, which was tested when it came");
            }
            self.next = end;
        }
        Ok(true)
    }

    /// Whether the list of one of these turns has come.
    fn has_any(&self, turns: &Range<usize>) -> bool {
        let before = self.early.range(..turns.end).next_back();
        turns.start < self.next || before.is_some_and(|(_, &(end, _))| end > turns.start)
    }

    /// The list kept so far. Lists that wait are not in it.
    pub fn kept(&self) -> &Kept<'p> {
        &self.kept
    }

    /// How many turns there are, from the first on, whose lists have all come. Where these are all turns of a query that is done, the
    /// list kept is the whole query's.
    pub fn in_a_row(&self) -> usize {
        self.next
    }
}
