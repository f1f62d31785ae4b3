//! Queries of several owners that wait over one survey.

use crate::calls::{join, serve, top_up, Queued, Served, MOST_ENTRIES};
use crate::engine::Entry;
use crate::refusals::Refusal;
use crate::tables::Survey;

/// Nobody's entry: what the buffers of a new queue hold.
pub const NO_ENTRY: Entry = Entry {
    allowance: 0,
    owner: 0,
    planned: 0,
    saved: 0,
    plan: [0; 256],
    state: [0; 11],
};

/// The words of an entry's plan; none where its count passes the array.
pub fn plan_in(entry: &Entry) -> &[u32] {
    entry.plan.get(..entry.planned as usize).unwrap_or_default()
}

/// The words of an entry's state: where its next turn starts. None where its count passes the array.
pub fn state_in(entry: &Entry) -> &[u32] {
    entry.state.get(..entry.saved as usize).unwrap_or_default()
}

/// The queries of up to [`MOST_ENTRIES`] owners: those in the line, in the order in which they come to their turns, and those set aside
/// because no steps are left to them.
///
/// ```
/// use sotjarn::Term::{Name, Number};
/// use sotjarn::{Branch, Plan, Query, Queue, Refusal, TableWords, TurnEnding, Variable};
///
/// let wood = TableWords::of_year(2026, [(1, 45), (2, 310), (3, 310)].map(|(stem, size)| [Name(stem), Name(12), Number(size)]))?;
/// let (stem, size) = (Variable(0), Variable(1));
/// let plan = Plan::builder().branch(Branch::new().pattern(stem, Name(12), size)).rows([stem])?;
/// let start = Query::open(wood.survey(1), plan.words())?.state().to_vec();
///
/// let mut queue = Queue::new();
/// queue.join(wood.survey(1), 7, 2, plan.words(), &start)?; // two steps
/// queue.join(wood.survey(1), 8, 9, plan.words(), &start)?;
///
/// let mut output = [0; 16];
/// let served = queue.serve(wood.survey(1), 3, &[], &mut output)?;
/// assert_eq!((served.owner, served.turned.steps, served.left), (7, 2, 0)); // no more than is left to it
/// assert_eq!(output[..served.turned.list_words], [1, 2]);
/// assert_eq!(queue.set_aside().len(), 1);
///
/// queue.top_up(7, 10)?; // behind owner 8
/// assert_eq!(queue.serve(wood.survey(1), 4, &[], &mut output)?.owner, 8);
/// let served = queue.serve(wood.survey(1), 4, &[], &mut output)?;
/// assert_eq!((served.owner, served.turned.ending, served.left), (7, TurnEnding::Done, 8)); // 2 and 10 granted, 4 taken
/// assert_eq!(output[..served.turned.list_words], [3]);
/// assert_eq!(queue.serve(wood.survey(1), 4, &[], &mut output), Err(Refusal::EmptyLine));
/// # Ok::<(), Box<dyn std::error::Error>>(())
/// ```
#[derive(Clone, Debug, PartialEq, Eq)]
pub struct Queue {
    line: Vec<Entry>,
    line_entries: usize,
    aside: Vec<Entry>,
    aside_entries: usize,
}

impl Default for Queue {
    fn default() -> Queue {
        Queue::new()
    }
}

impl Queue {
    /// A queue of nobody.
    pub fn new() -> Queue {
        Queue {
            line: vec![NO_ENTRY; MOST_ENTRIES],
            line_entries: 0,
            aside: vec![NO_ENTRY; MOST_ENTRIES],
            aside_entries: 0,
        }
    }

    /// The line, from its front.
    pub fn line(&self) -> &[Entry] {
        &self.line[..self.line_entries]
    }

    /// Those set aside, in the order in which they were.
    pub fn set_aside(&self) -> &[Entry] {
        &self.aside[..self.aside_entries]
    }

    /// An owner's entry, wherever it waits.
    pub fn entry(&self, owner: u32) -> Option<&Entry> {
        self.line().iter().chain(self.set_aside()).find(|entry| entry.owner == owner)
    }

    fn now(&mut self, queued: Queued) {
        (self.line_entries, self.aside_entries) = (queued.line_entries, queued.aside_entries);
    }

    /// An owner's query joins, with an allowance of steps; with none it is set aside. See [`join`].
    pub fn join(&mut self, survey: Survey, owner: u32, allowance: u64, plan: &[u32], state: &[u32]) -> Result<(), Refusal> {
        let (line_entries, aside_entries) = (self.line_entries, self.aside_entries);
        let (line, aside) = (&mut self.line[..], &mut self.aside[..]);
        let queued = join(
            survey,
            line,
            line_entries,
            aside,
            aside_entries,
            owner,
            allowance,
            plan,
            state,
        )?;
        self.now(queued);
        Ok(())
    }

    /// A turn of the query at the front, which then leaves, goes to the back or is set aside. The threshold is the front entry's. See
    /// [`serve`].
    pub fn serve(&mut self, survey: Survey, quantum: u32, threshold: &[u32], output: &mut [u32]) -> Result<Served, Refusal> {
        let (line_entries, aside_entries) = (self.line_entries, self.aside_entries);
        let (line, aside) = (&mut self.line[..], &mut self.aside[..]);
        let served = serve(survey, line, line_entries, aside, aside_entries, quantum, threshold, output)?;
        (self.line_entries, self.aside_entries) = (served.line_entries, served.aside_entries);
        Ok(served)
    }

    /// An owner who is set aside comes back to the end of the line, with so many steps. See [`top_up`].
    pub fn top_up(&mut self, owner: u32, amount: u64) -> Result<(), Refusal> {
        let (line_entries, aside_entries) = (self.line_entries, self.aside_entries);
        let queued = top_up(&mut self.line, line_entries, &mut self.aside, aside_entries, owner, amount)?;
        self.now(queued);
        Ok(())
    }
}
