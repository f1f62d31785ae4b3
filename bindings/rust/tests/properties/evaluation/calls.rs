//! The three calls of a query: tests in their order, the answer, and the written buffers at exit.

use std::collections::BTreeSet;

use super::lists;
use super::plan::{self, Ending, Plan};
use super::run::{self, Bound, Run};
use super::tables::Tables;
use super::words::*;

#[derive(Clone, Copy, Debug, PartialEq)]
pub enum How {
    Done,
    Spent,
    Full,
}

/// What a served turn answers: steps, ending, state words, list words.
pub type Answer = (u32, How, usize, usize);

#[derive(Clone, Debug)]
pub struct Open {
    pub tables: Tables,
    pub survey: u32,
    pub plan: Vec<u32>,
    pub state: Vec<u32>,
}

#[derive(Clone, Debug)]
pub struct Turn {
    pub tables: Tables,
    pub survey: u32,
    pub plan: Vec<u32>,
    pub state: Vec<u32>,
    pub given: usize,
    pub quantum: u32,
    pub threshold: Vec<u32>,
    pub output: Vec<u32>,
}

#[derive(Clone, Debug)]
pub struct Merge {
    pub plan: Vec<u32>,
    pub kept: Vec<u32>,
    pub given: usize,
    pub list: Vec<u32>,
}

/// Accepted tables and plan, and their uncut run. Calls of them are made under a survey's number, each under its own: what it answers
/// goes by that, and not by the one here, which those who make calls may set.
pub struct Query {
    pub tables: Tables,
    pub survey: u32,
    pub words: Vec<u32>,
    pub plan: Plan,
    pub run: Run,
}

/// Tests 5, 6 and 23.
pub fn accepted_plan(words: &[u32]) -> Result<Plan, u32> {
    let plan = plan::read(words).ok_or(5u32)?;
    let plan = plan.variables_right().then_some(plan).ok_or(6u32)?;
    plan.year_right().then_some(plan).ok_or(23)
}

/// The tests of tables and plan, then the run; `None` if it has `most` steps or more.
pub fn query(tables: &Tables, words: &[u32], most: usize) -> Result<Option<Query>, u32> {
    let (orders, plan) = (tables.orders()?, accepted_plan(words)?);
    let run = run::run(&orders, &plan, most);
    Ok(run.map(|run| Query {
        tables: tables.clone(),
        survey: 0,
        words: words.to_vec(),
        plan,
        run,
    }))
}

impl Query {
    /// The words of the state that so many steps lead to, under the query's number.
    pub fn saved(&self, number: usize) -> Vec<u32> {
        self.run.saved(self.survey, number)
    }
}

/// A buffer with words written over its front.
fn written(buffer: &[u32], words: &[u32]) -> Vec<u32> {
    words.iter().chain(&buffer[words.len()..]).copied().collect()
}

/// The answer to an opening whose tables and plan are those of `query`, and the state buffer at exit.
pub fn open(query: &Query, call: &Open) -> (Result<usize, u32>, Vec<u32>) {
    if call.state.len() < 11 {
        return (Err(7), call.state.clone());
    }
    if call.survey > MOST_COUNT {
        return (Err(22), call.state.clone());
    }
    let start = query.run.saved(call.survey, 0);
    (Ok(start.len()), written(&call.state, &start))
}

/// Test 9: the survey's number in a state's words, and its year, branch and places.
fn state_of(query: &Query, words: &[u32]) -> Option<(u32, Vec<u32>)> {
    let [survey, year, first, places @ ..] = words else {
        return None;
    };
    let (branch, depth) = (count(*first) / 16, count(*first) % 16);
    let patterns = query.plan.branches.get(branch as usize)?.patterns.len();
    let right = kind(*survey) == SURVEY
        && kind(*year) == YEAR
        && query.run.years.contains(&count(*year))
        && kind(*first) == STATE
        && places.iter().all(|&word| kind(word) == PLACE)
        && (1..=patterns).contains(&(depth as usize))
        && places.len() == depth as usize;
    let state = || {
        [count(*year), branch]
            .into_iter()
            .chain(places.iter().map(|&word| count(word)))
            .collect()
    };
    right.then(|| (count(*survey), state()))
}

/// Tests 9, 22 and 10 of a state's words, under a survey's number: how many steps the run makes to it.
pub fn state_start(query: &Query, survey: u32, words: &[u32]) -> Result<usize, u32> {
    let (number, state) = state_of(query, words).ok_or(9u32)?;
    if survey > MOST_COUNT || number != survey {
        return Err(22);
    }
    query.run.number(&state).ok_or(10)
}

/// Test 11.
fn threshold_right(plan: &Plan, threshold: &[u32]) -> bool {
    let row = matches!(plan.ending, Ending::Top(..)) && threshold.len() == plan.width();
    threshold.is_empty() || row && threshold.iter().all(|&word| delivered(word))
}

/// Tests 7 to 11, and 22 between 9 and 10: how many steps the run makes to the given state.
fn turn_start(query: &Query, call: &Turn) -> Result<usize, u32> {
    if call.state.len() < 11 || call.output.len() < query.plan.least_output() {
        return Err(7);
    }
    if !(1..=1_000_000).contains(&call.quantum) {
        return Err(8);
    }
    let given = call.state.get(..call.given).ok_or(9u32)?;
    let number = state_start(query, call.survey, given)?;
    threshold_right(&query.plan, &call.threshold).then_some(number).ok_or(11)
}

/// What has been delivered in a turn, as far as space goes.
struct Space<'a> {
    plan: &'a Plan,
    capacity: usize,
    rows: usize,
    groups: BTreeSet<&'a [u32]>,
}

impl<'a> Space<'a> {
    /// The keys of a delivered row.
    fn keys(&self, row: &'a [u32]) -> &'a [u32] {
        &row[..row.len() - 1]
    }

    /// Whether the output has space for a row.
    fn has_space(&self, row: &'a [u32]) -> bool {
        match self.plan.ending {
            Ending::Rows(_) => self.rows < self.capacity,
            Ending::Top(..) | Ending::Registers(_) => true,
            Ending::Group(..) => self.groups.contains(self.keys(row)) || self.groups.len() < self.capacity,
        }
    }

    fn take(&mut self, row: &'a [u32]) {
        self.rows += 1;
        self.groups.insert(self.keys(row));
    }
}

/// The state that a turn's step leads to, by numbers: one that would open a level moves its place on where the threshold leaves the match out.
fn next(query: &Query, at: usize, threshold: &[u32]) -> usize {
    let Query { plan, run, .. } = query;
    let branch = &plan.branches[run.states[at][1] as usize];
    let pruned = |bound: &Bound| !threshold.is_empty() && lists::left_out(plan, branch, bound, threshold);
    match &run.opened[at] {
        Some(bound) if pruned(bound) => run.place_on(at),
        _ => at + 1,
    }
}

/// The states that a turn's steps are made from, where the run makes `start` steps to the first, the one that it ends at, and how.
fn walked(query: &Query, start: usize, call: &Turn) -> (Vec<usize>, usize, How) {
    let Query { plan, run, .. } = query;
    let (quantum, output) = (call.quantum as usize, call.output.len());
    let mut space = Space {
        plan,
        capacity: output / plan.width(),
        rows: 0,
        groups: BTreeSet::new(),
    };
    let (mut way, mut at) = (Vec::new(), start);
    loop {
        if let Some(row) = &run.delivered[at] {
            space.take(row);
        }
        way.push(at);
        at = next(query, at, &call.threshold);
        if at == run.steps() {
            return (way, at, How::Done);
        }
        if way.len() == quantum {
            return (way, at, How::Spent);
        }
        if run.delivered[at].as_ref().is_some_and(|row| !space.has_space(row)) {
            return (way, at, How::Full);
        }
    }
}

/// The answer to a turn whose tables and plan are those of `query`, and its state and output at exit.
pub fn turn(query: &Query, call: &Turn) -> (Result<Answer, u32>, Vec<u32>, Vec<u32>) {
    let start = match turn_start(query, call) {
        Ok(start) => start,
        Err(number) => return (Err(number), call.state.clone(), call.output.clone()),
    };
    let (way, end, how) = walked(query, start, call);
    let rows: Vec<&[u32]> = way.iter().filter_map(|&at| query.run.delivered[at].as_deref()).collect();
    let (list, saved) = match how {
        How::Done => (lists::last_list(&query.plan, &rows, &call.threshold), Vec::new()),
        _ => (
            lists::list(&query.plan, &rows, &call.threshold),
            query.run.saved(call.survey, end),
        ),
    };
    let answer = (way.len() as u32, how, saved.len(), list.len());
    (Ok(answer), written(&call.state, &saved), written(&call.output, &list))
}

/// The merged list, or the number of the first test that fails.
fn merged(call: &Merge) -> Result<Vec<u32>, u32> {
    let plan = accepted_plan(&call.plan)?;
    let kept = call.kept.get(..call.given).ok_or(12u32)?;
    let list = lists::merged(&plan, kept, &call.list)?;
    (list.len() <= call.kept.len()).then_some(list).ok_or(14)
}

/// The answer to a merge, and the kept buffer at exit.
pub fn merge(call: &Merge) -> (Result<usize, u32>, Vec<u32>) {
    match merged(call) {
        Ok(list) => (Ok(list.len()), written(&call.kept, &list)),
        Err(number) => (Err(number), call.kept.clone()),
    }
}
