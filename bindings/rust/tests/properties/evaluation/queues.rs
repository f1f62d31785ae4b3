//! Joining, serving and topping up a queue, as plainly as the rules say it: entries are taken out of a list and put behind one.

use super::calls::{self, Answer, How, Query, Turn};
use super::tables::Tables;
use super::words::MOST_COUNT;

/// The most entries in all, and what each buffer has at least; the words of an entry's two arrays.
pub const MOST: usize = 32;
pub const PLAN_ROOM: usize = 256;
pub const STATE_ROOM: usize = 11;

/// A waiting query.
#[derive(Clone, Debug, PartialEq)]
pub struct Waiting {
    pub allowance: u64,
    pub owner: u32,
    pub planned: u32,
    pub saved: u32,
    pub plan: Vec<u32>,
    pub state: Vec<u32>,
}

/// Both lists as they are lent: two buffers, and how many entries of each are its list.
#[derive(Clone, Debug, PartialEq)]
pub struct Lists {
    pub line: Vec<Waiting>,
    pub waiting: usize,
    pub aside: Vec<Waiting>,
    pub resting: usize,
}

#[derive(Clone, Debug)]
pub struct Join {
    pub tables: Tables,
    pub survey: u32,
    pub lists: Lists,
    pub owner: u32,
    pub allowance: u64,
    pub plan: Vec<u32>,
    pub state: Vec<u32>,
}

#[derive(Clone, Debug)]
pub struct Serve {
    pub tables: Tables,
    pub survey: u32,
    pub lists: Lists,
    pub quantum: u32,
    pub threshold: Vec<u32>,
    pub output: Vec<u32>,
}

#[derive(Clone, Debug)]
pub struct TopUp {
    pub lists: Lists,
    pub owner: u32,
    pub amount: u64,
}

/// What joining and topping up answer: the entries of the line and of the list set aside.
pub type Counts = (usize, usize);

/// What serving answers: the turn's answer, the owner, what is left to it, and the counts.
pub type Service = (Answer, u32, u64, Counts);

impl Lists {
    /// The entries of both lists; as many as there are where more are given.
    fn lent(&self) -> (&[Waiting], &[Waiting]) {
        (
            &self.line[..self.waiting.min(self.line.len())],
            &self.aside[..self.resting.min(self.aside.len())],
        )
    }

    /// Test 17 of the entries that are lent.
    fn entries_right(&self, joining: Option<u32>) -> bool {
        let (line, aside) = self.lent();
        let mut owners: Vec<u32> = line.iter().chain(aside).map(|entry| entry.owner).chain(joining).collect();
        let every = owners.len();
        owners.sort();
        owners.dedup();
        owners.len() == every && line.iter().all(|entry| entry.allowance > 0) && aside.iter().all(|entry| entry.allowance == 0)
    }

    /// Test 18, with so many entries more.
    fn room_right(&self, more: u128) -> bool {
        let all = self.waiting as u128 + self.resting as u128 + more;
        self.line.len() >= MOST && self.aside.len() >= MOST && all <= MOST as u128
    }

    /// These lists over the fronts of the buffers.
    fn with(&self, line: &[Waiting], aside: &[Waiting]) -> (Counts, Lists) {
        let over = |list: &[Waiting], buffer: &[Waiting]| list.iter().chain(&buffer[list.len()..]).cloned().collect();
        let lists = Lists {
            line: over(line, &self.line),
            waiting: line.len(),
            aside: over(aside, &self.aside),
            resting: aside.len(),
        };
        ((line.len(), aside.len()), lists)
    }
}

fn behind(list: &[Waiting], entry: Waiting) -> Vec<Waiting> {
    list.iter().cloned().chain([entry]).collect()
}

/// So many words, those given first.
fn padded(words: &[u32], room: usize) -> Vec<u32> {
    words.iter().copied().chain(std::iter::repeat(0)).take(room).collect()
}

/// Tests of what joins, up to 10; none where the run is too long to work out.
fn joins(call: &Join, most: usize) -> Option<Result<(), u32>> {
    let query = match calls::query(&call.tables, &call.plan, most) {
        Ok(query) => query?,
        Err(number) => return Some(Err(number)),
    };
    Some(calls::state_start(&query, call.survey, &call.state).map(|_| ()))
}

/// The answer to a joining, and both lists at exit; none where the run is too long to work out.
pub fn join(call: &Join, most: usize) -> Option<(Result<Counts, u32>, Lists)> {
    let lists = &call.lists;
    let refused = |number| Some((Err(number), lists.clone()));
    match joins(call, most)? {
        Err(number) => return refused(number),
        _ if !lists.entries_right(Some(call.owner)) => return refused(17),
        _ if !lists.room_right(1) => return refused(18),
        Ok(()) => {}
    }
    let entry = Waiting {
        allowance: call.allowance,
        owner: call.owner,
        planned: call.plan.len() as u32,
        saved: call.state.len() as u32,
        plan: padded(&call.plan, PLAN_ROOM),
        state: padded(&call.state, STATE_ROOM),
    };
    let (line, aside) = lists.lent();
    let (counts, at_exit) = match call.allowance {
        0 => lists.with(line, &behind(aside, entry)),
        _ => lists.with(&behind(line, entry), aside),
    };
    Some((Ok(counts), at_exit))
}

/// A turn of an entry.
pub fn turn_of(call: &Serve, front: &Waiting, quantum: u32) -> Turn {
    Turn {
        tables: call.tables.clone(),
        survey: call.survey,
        plan: front.plan.get(..front.planned as usize).unwrap_or_default().to_vec(),
        state: front.state.clone(),
        given: front.saved as usize,
        quantum,
        threshold: call.threshold.clone(),
        output: call.output.clone(),
    }
}

/// Tests 1 to 11 and 22 on the front entry and the call, or those of an empty line; none where the run is too long to work out.
fn front_tests(call: &Serve, most: usize) -> Option<Result<Option<Query>, u32>> {
    let Some(front) = call.lists.lent().0.first() else {
        let quantum = (1..=1_000_000).contains(&call.quantum).then_some(()).ok_or(8);
        let number = (call.survey <= MOST_COUNT).then_some(None).ok_or(22);
        return Some(call.tables.orders().map(|_| ()).and(quantum).and(number));
    };
    let turn = turn_of(call, front, call.quantum);
    match calls::query(&call.tables, &turn.plan, most) {
        Err(number) => Some(Err(number)),
        Ok(query) => {
            let query = query?;
            let tested = calls::turn(&query, &turn).0;
            Some(tested.map(|_| Some(query)))
        }
    }
}

/// The answer to a serving, both lists at exit, and the output; none where the run is too long to work out.
pub fn serve(call: &Serve, most: usize) -> Option<(Result<Service, u32>, Lists, Vec<u32>)> {
    let lists = &call.lists;
    let refused = |number| Some((Err(number), lists.clone(), call.output.clone()));
    let query = match front_tests(call, most)? {
        Err(number) => return refused(number),
        _ if !lists.entries_right(None) => return refused(17),
        _ if !lists.room_right(0) => return refused(18),
        Ok(None) => return refused(19),
        Ok(Some(query)) => query,
    };
    let (line, aside) = lists.lent();
    let (front, rest) = line.split_first().expect("the line has a front");
    let quantum = u64::from(call.quantum).min(front.allowance) as u32;
    let (answer, state, output) = calls::turn(&query, &turn_of(call, front, quantum));
    let answer = answer.expect("a turn of fewer steps is served too");
    let (steps, how, saved, _) = answer;
    let left = front.allowance - u64::from(steps);
    let entry = Waiting {
        allowance: left,
        saved: saved as u32,
        state,
        ..front.clone()
    };
    let (counts, at_exit) = match how {
        How::Done => lists.with(rest, aside),
        _ if left == 0 => lists.with(rest, &behind(aside, entry)),
        _ => lists.with(&behind(rest, entry), aside),
    };
    Some((Ok((answer, front.owner, left, counts)), at_exit, output))
}

/// The answer to a top-up, and both lists at exit.
pub fn top_up(call: &TopUp) -> (Result<Counts, u32>, Lists) {
    let lists = &call.lists;
    let (line, aside) = lists.lent();
    let place = aside.iter().position(|entry| entry.owner == call.owner);
    let place = match place {
        Some(place) if call.amount > 0 && lists.entries_right(None) => place,
        _ => return (Err(17), lists.clone()),
    };
    if !lists.room_right(0) {
        return (Err(18), lists.clone());
    }
    let (mut others, line) = (aside.to_vec(), line.to_vec());
    let mut entry = others.remove(place);
    entry.allowance = call.amount;
    let (counts, at_exit) = lists.with(&behind(&line, entry), &others);
    (Ok(counts), at_exit)
}
