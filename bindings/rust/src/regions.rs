//! A region: one plan asked of many tables, each by itself, and what the lists of all their turns make.

use crate::calls::TurnEnding;
use crate::late::Late;
use crate::lists::Kept;
use crate::plans::{Plan, PlanEnding};
use crate::queries::Turn;
use crate::refusals::Refusal;

/// One of a region's tables.
#[derive(Clone, Debug)]
struct Part<'p> {
    late: Late<'p>,
    steps: u64,
    /// How many turns the query over it took, once done is among those that came.
    turns: Option<usize>,
}

/// The lists of a region: a plan is asked of each of its tables by itself, no row joins across them, and the turns of different tables may be made
/// and come back in any order, on any thread. Rows are joined, and best-of lists merged, in the sequence of the tables, groups and registers added up.
///
/// ```
/// use sotjarn::Term::{Name, Number};
/// use sotjarn::{Branch, List, Plan, Query, Region, TableWords, Value, Variable};
///
/// // Two owners' properties, each in tables of its own: stem, stand, diameter.
/// let property = |stems: [(u32, i32); 2]| TableWords::of_year(2026, stems.map(|(stem, size)| [Name(stem), Name(12), Number(size)]));
/// let properties = [property([(1, 45), (2, 310)])?, property([(3, 288), (4, 290)])?];
/// let size = Variable(1);
/// let plan = Plan::builder().branch(Branch::new().pattern(Variable(0), Name(12), size)).group([], size)?;
///
/// let mut region = Region::new(&plan, properties.len());
/// for (table, property) in properties.iter().enumerate() {
///     for (number, turn) in Query::open(property.survey(table as u32), plan.words())?.turns(2, plan.least_output()).enumerate() {
///         region.receive(table, number, &turn?)?;
///     }
/// }
/// assert!(region.is_finished());
/// assert_eq!((region.steps(), region.tables_done()), (6, 2));
/// let List::Groups(groups) = region.merged()?.list()? else { unreachable!("the plan ends in groups") };
/// assert_eq!((groups[0].rows, groups[0].sum), (4, 933));
/// # Ok::<(), Box<dyn std::error::Error>>(())
/// ```
#[derive(Clone, Debug)]
pub struct Region<'p> {
    plan: &'p Plan,
    parts: Vec<Part<'p>>,
    /// What the tables up to each come to together, where it is known: thresholds are taken from it.
    together: Vec<Option<Kept<'p>>>,
}

impl<'p> Region<'p> {
    /// A region of so many tables, of which nothing has come.
    pub fn new(plan: &'p Plan, tables: usize) -> Region<'p> {
        let part = Part {
            late: Late::new(plan),
            steps: 0,
            turns: None,
        };
        Region {
            plan,
            parts: vec![part; tables],
            together: vec![None; tables],
        }
    }

    /// Receives the turn with this number, from 0 on, of a table's query. Says whether it is the first one of that number; another one is thrown away.
    /// A refused list changes nothing ([`Late::receive`]).
    ///
    /// # Panics
    ///
    /// Where the region has no table of this number.
    pub fn receive(&mut self, table: usize, number: usize, turn: &Turn) -> Result<bool, Refusal> {
        let part = &mut self.parts[table];
        let first = part.late.receive(number, &turn.list)?;
        if first {
            part.steps += u64::from(turn.steps);
            if turn.ending == TurnEnding::Done {
                part.turns = Some(number + 1);
            }
            self.together[table..].fill(None);
        }
        Ok(first)
    }

    /// The threshold that may go with the next turn of a table: the last row of a full list merged from what has come of this table and of those before
    /// it in the sequence; else none. What comes after it in the sequence may not be in it, as of equal rows the first one's is kept.
    ///
    /// # Panics
    ///
    /// Where the region has no table of this number.
    pub fn threshold(&mut self, table: usize) -> Vec<u32> {
        if !matches!(self.plan.ending(), PlanEnding::Top { .. }) {
            return Vec::new();
        }
        let mut before = Kept::new(self.plan);
        for at in 0..=table {
            let part = self.parts[at].late.kept();
            let together = self.together[at].get_or_insert_with(|| joined(before, part));
            before = together.clone();
        }
        before.threshold().to_vec()
    }

    /// What all that has come makes: of a region that is finished, SPARQL's answer over the solutions of all its tables; before, that of the parts run
    /// so far. Refused by 13 where a total leaves its range.
    pub fn merged(&self) -> Result<Kept<'p>, Refusal> {
        let mut kept = Kept::new(self.plan);
        self.parts
            .iter()
            .try_for_each(|part| take_part(&mut kept, part.late.kept()))?;
        Ok(kept)
    }

    /// The steps of all turns that have come.
    pub fn steps(&self) -> u64 {
        self.parts.iter().map(|part| part.steps).sum()
    }

    /// How many tables there are.
    pub fn tables(&self) -> usize {
        self.parts.len()
    }

    /// How many of them are asked to their end, with every list there.
    pub fn tables_done(&self) -> usize {
        self.parts
            .iter()
            .filter(|part| part.turns == Some(part.late.in_a_row()))
            .count()
    }

    /// Whether each of its queries is finished: only then is what they make an answer.
    pub fn is_finished(&self) -> bool {
        self.tables_done() == self.tables()
    }
}

/// Takes what has come of a table. Of one without a list there is nothing to take.
fn take_part(kept: &mut Kept, part: &Kept) -> Result<(), Refusal> {
    if part.words().is_empty() {
        return Ok(());
    }
    kept.take(part.words())
}

/// A best-of list with that of the next table, of the same plan: no test refuses such a merge.
fn joined<'p>(mut kept: Kept<'p>, part: &Kept<'p>) -> Kept<'p> {
    take_part(&mut kept, part).expect("lists of one plan, which were tested when they came");
    kept
}
