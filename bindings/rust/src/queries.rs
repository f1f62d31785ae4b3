//! A query and its turns.

use std::iter::FusedIterator;

use crate::calls::{open, turn, TurnEnding, Turned, STATE_WORDS};
use crate::refusals::Refusal;
use crate::tables::Survey;

/// A query under way: its survey, its plan, and the state that the last turn left.
#[derive(Clone, Debug, PartialEq, Eq)]
pub struct Query<'a> {
    survey: Survey<'a>,
    plan: &'a [u32],
    state: Vec<u32>,
    state_words: usize,
    done: bool,
}

/// What a served turn made.
#[derive(Clone, Debug, PartialEq, Eq)]
pub struct Turn {
    /// The steps taken.
    pub steps: u32,
    /// How it ended.
    pub ending: TurnEnding,
    /// The words of its list.
    pub list: Vec<u32>,
}

impl<'a> Query<'a> {
    /// Opens a query. Refused by 1 to 6, 22 and 23.
    pub fn open(survey: Survey<'a>, plan: &'a [u32]) -> Result<Query<'a>, Refusal> {
        let mut state = vec![0; STATE_WORDS];
        let state_words = open(survey, plan, &mut state)?;
        Ok(Query {
            survey,
            plan,
            state,
            state_words,
            done: false,
        })
    }

    /// Goes on with a query from the words that [`Query::state`] gave. They are tested by its first turn: those of another survey are
    /// refused by 22, and the query is opened anew then.
    pub fn load(survey: Survey<'a>, plan: &'a [u32], saved: &[u32]) -> Query<'a> {
        let mut state = saved.to_vec();
        state.resize(saved.len().max(STATE_WORDS), 0);
        Query {
            survey,
            plan,
            state,
            state_words: saved.len(),
            done: false,
        }
    }

    /// The saved words: where the next turn starts. There are none after done.
    pub fn state(&self) -> &[u32] {
        self.state.get(..self.state_words).unwrap_or_default()
    }

    /// Whether a turn has ended the query.
    pub fn is_done(&self) -> bool {
        self.done
    }

    /// Runs one turn. A refused one changes nothing; after done every turn is refused.
    pub fn turn(&mut self, quantum: u32, threshold: &[u32], output: &mut [u32]) -> Result<Turned, Refusal> {
        let turned = turn(
            self.survey,
            self.plan,
            &mut self.state,
            self.state_words,
            quantum,
            threshold,
            output,
        )?;
        self.state_words = turned.state_words;
        self.done = turned.ending == TurnEnding::Done;
        Ok(turned)
    }

    /// The turns from here to done, each of at most `quantum` steps and with an output of so many words
    /// ([`Plan::least_output`](crate::Plan::least_output) at least). They end after done, or after a refusal.
    ///
    /// ```
    /// use sotjarn::Term::{Name, Number};
    /// use sotjarn::{Branch, Kept, Plan, Query, TableWords, Variable};
    ///
    /// let wood = TableWords::of_year(2026, [(1, 45), (2, 310), (3, 310)].map(|(stem, size)| [Name(stem), Name(12), Number(size)]))?;
    /// let size = Variable(1);
    /// let plan = Plan::builder().branch(Branch::new().pattern(Variable(0), Name(12), size)).group([], size)?;
    ///
    /// let mut query = Query::open(wood.survey(1), plan.words())?;
    /// let mut kept = Kept::new(&plan);
    /// let mut steps = 0;
    /// for turn in query.turns(2, plan.least_output()) {
    ///     let turn = turn?;
    ///     steps += turn.steps;
    ///     kept.take(&turn.list)?;
    /// }
    /// assert_eq!(steps, 4); // three rows, and the end of the range
    /// assert_eq!(kept.words()[4], 665); // the sum's low word
    /// assert!(query.is_done());
    /// # Ok::<(), Box<dyn std::error::Error>>(())
    /// ```
    pub fn turns(&mut self, quantum: u32, output_words: usize) -> Turns<'_, 'a> {
        let ended = self.done;
        Turns {
            query: self,
            quantum,
            threshold: Vec::new(),
            output: vec![0; output_words],
            ended,
        }
    }
}

/// The turns of a query, one after the other.
#[derive(Debug)]
pub struct Turns<'q, 'a> {
    query: &'q mut Query<'a>,
    quantum: u32,
    threshold: Vec<u32>,
    output: Vec<u32>,
    ended: bool,
}

impl Turns<'_, '_> {
    /// The threshold that goes with the turns from here on: none, or [`Kept::threshold`](crate::Kept::threshold).
    pub fn set_threshold(&mut self, threshold: &[u32]) {
        self.threshold.clear();
        self.threshold.extend_from_slice(threshold);
    }

    /// The quantum of the turns from here on.
    pub fn set_quantum(&mut self, quantum: u32) {
        self.quantum = quantum;
    }

    /// The saved words: where the next turn starts.
    pub fn state(&self) -> &[u32] {
        self.query.state()
    }
}

impl Iterator for Turns<'_, '_> {
    type Item = Result<Turn, Refusal>;

    fn next(&mut self) -> Option<Result<Turn, Refusal>> {
        if self.ended {
            return None;
        }
        let served = self.query.turn(self.quantum, &self.threshold, &mut self.output);
        self.ended = !matches!(
            served,
            Ok(Turned {
                ending: TurnEnding::Spent | TurnEnding::Full,
                ..
            })
        );
        Some(served.map(|turned| Turn {
            steps: turned.steps,
            ending: turned.ending,
            list: self.output[..turned.list_words].to_vec(),
        }))
    }
}

impl FusedIterator for Turns<'_, '_> {}
