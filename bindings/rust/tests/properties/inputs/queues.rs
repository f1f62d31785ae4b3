//! Random queues over a wood, calls of them, and damage.

use super::random::Random;
use super::{calls, plans, woods};
use crate::evaluation::calls::{self as evaluation, Query, Turn};
use crate::evaluation::queues::{turn_of, Join, Lists, Serve, TopUp, Waiting, MOST, PLAN_ROOM, STATE_ROOM};
use crate::evaluation::tables::Tables;

/// The most steps of an owner's run.
pub const STEPS: usize = 1_500;

/// Queries over one wood, under one number, so many.
pub fn queries(random: &mut Random, many: usize) -> Vec<Query> {
    let most_rows = random.pick(&[0, 3, 12, 25, 25, 60]);
    let tables = woods::wood(random, most_rows);
    queries_over(random, tables, many)
}

/// Queries over these tables.
pub fn queries_over(random: &mut Random, tables: Tables, many: usize) -> Vec<Query> {
    let deliveries = random.pick(&[0, 2, 6]);
    let (survey, mut made) = (woods::survey(random), Vec::new());
    while made.len() < many {
        let words = plans::plan(random, &tables).words();
        if let Ok(Some(mut query)) = evaluation::query(&tables, &words, STEPS) {
            query.survey = survey;
            if query.run.delivered.iter().flatten().count() >= deliveries || random.chance(10) {
                made.push(query);
            }
        }
    }
    made
}

fn padded(random: &mut Random, words: &[u32], room: usize, zeros: bool) -> Vec<u32> {
    let mut all = words.to_vec();
    while all.len() < room {
        all.push(if zeros { 0 } else { random.word() });
    }
    all
}

/// The steps left to an entry in the line: a few, more than there are, or more than 32 bits hold.
pub fn allowance(random: &mut Random, query: &Query) -> u64 {
    let some = random.between(1, query.run.steps()) as u64;
    random.pick(&[1, 2, some, some, query.run.steps() as u64, 1_000_000, 1 << 40, u64::MAX])
}

/// An entry of a query, at any of its states.
pub fn entry(random: &mut Random, query: &Query, owner: u32, waits: bool) -> Waiting {
    let state = query.saved(random.below(query.run.steps()));
    let zeros = random.chance(50);
    Waiting {
        allowance: if waits { allowance(random, query) } else { 0 },
        owner,
        planned: query.words.len() as u32,
        saved: state.len() as u32,
        plan: padded(random, &query.words, PLAN_ROOM, zeros),
        state: padded(random, &state, STATE_ROOM, zeros),
    }
}

/// An entry of any words: what may stand behind a list.
fn made_up(random: &mut Random) -> Waiting {
    let (plan, state) = (random.words(PLAN_ROOM), random.words(STATE_ROOM));
    Waiting {
        allowance: random.pick(&[0, 0, 1, 5, u64::MAX]),
        owner: random.small(40),
        planned: random.pick(&[0, 1, 14, 256, 257, u32::MAX]),
        saved: random.pick(&[0, 2, 3, 11, 12, u32::MAX]),
        plan,
        state,
    }
}

/// A buffer with these entries at its front.
fn buffer(random: &mut Random, mut entries: Vec<Waiting>) -> Vec<Waiting> {
    let room = MOST + random.pick(&[0, 0, 0, 1, 3]);
    while entries.len() < room {
        entries.push(made_up(random));
    }
    entries
}

/// Both lists, with entries of these queries by owners of their own; at most so many.
pub fn lists(random: &mut Random, queries: &[Query], most: usize) -> Lists {
    let many = random.pick(&[0, 1, 2, 3, 5, 9, most - 1, most]).min(most);
    let some = random.below(many + 1);
    let waiting = random.pick(&[many, many, many / 2, some, 0]);
    let first = random.pick(&[0, 0, 7, u32::MAX - 40]);
    let mut owners: Vec<u32> = (first..first + 40).collect();
    let mut entries: Vec<Waiting> = (0..many)
        .map(|place| {
            let owner = owners.swap_remove(random.below(owners.len()));
            let query = &queries[random.below(queries.len())];
            entry(random, query, owner, place < waiting)
        })
        .collect();
    let aside = entries.split_off(waiting);
    Lists {
        waiting,
        resting: aside.len(),
        line: buffer(random, entries),
        aside: buffer(random, aside),
    }
}

/// An owner that has no entry.
fn newcomer(random: &mut Random, lists: &Lists) -> u32 {
    loop {
        let near = random.small(50);
        let owner = random.pick(&[near, near, u32::MAX - near]);
        let (line, aside) = (&lists.line[..lists.waiting], &lists.aside[..lists.resting]);
        if line.iter().chain(aside).all(|entry| entry.owner != owner) {
            return owner;
        }
    }
}

/// A query joins at most so many entries, less one, from any of its states.
pub fn join(random: &mut Random, queries: &[Query], most: usize) -> Join {
    let lists = lists(random, queries, most - 1);
    let query = &queries[random.below(queries.len())];
    let steps = allowance(random, query);
    Join {
        tables: query.tables.clone(),
        survey: query.survey,
        owner: newcomer(random, &lists),
        lists,
        allowance: random.pick(&[0, steps, steps]),
        plan: query.words.clone(),
        state: query.saved(random.below(query.run.steps())),
    }
}

/// A call that serves a queue, with what belongs to its front entry; a queue of nobody is refused by 19.
pub fn serve(random: &mut Random, queries: &[Query], lists: Lists) -> Serve {
    let front = lists.line[..lists.waiting]
        .first()
        .map(|entry| &entry.plan[..entry.planned as usize]);
    let query = queries
        .iter()
        .find(|query| Some(&query.words[..]) == front)
        .unwrap_or(&queries[0]);
    let Turn {
        threshold,
        output,
        quantum,
        ..
    } = calls::turn(random, query);
    Serve {
        tables: query.tables.clone(),
        survey: query.survey,
        lists,
        quantum,
        threshold,
        output,
    }
}

/// A top-up of somebody who is set aside, where there is one.
pub fn top_up(random: &mut Random, lists: Lists) -> TopUp {
    let owner = match lists.resting {
        0 => newcomer(random, &lists),
        many => lists.aside[random.below(many)].owner,
    };
    TopUp {
        lists,
        owner,
        amount: random.pick(&[1, 2, 100, u64::from(u32::MAX), u64::MAX]),
    }
}

/// One thing of the lists changed: an entry's owner or steps, a count, a buffer's length. `more` entries are to be added.
pub fn lists_damage(random: &mut Random, lists: &mut Lists, joining: Option<u32>) {
    let (waiting, resting) = (lists.waiting.min(lists.line.len()), lists.resting.min(lists.aside.len()));
    match random.small(9) {
        0 if waiting > 0 => {
            let at = random.below(waiting);
            lists.line[at].allowance = 0;
        }
        1 if resting > 0 => {
            let at = random.below(resting);
            lists.aside[at].allowance = random.pick(&[1, 1, 1 << 32, u64::MAX]);
        }
        2 | 3 if waiting + resting > 0 => {
            // somebody else's owner, or the joining one's
            let (at, from) = (random.below(waiting + resting), random.below(waiting + resting));
            let owner_at = |place: usize| {
                if place < waiting {
                    lists.line[place].owner
                } else {
                    lists.aside[place - waiting].owner
                }
            };
            let owner = joining.filter(|_| random.chance(60)).unwrap_or(owner_at(from));
            match at < waiting {
                true => lists.line[at].owner = owner,
                false => lists.aside[at - waiting].owner = owner,
            }
        }
        4 => lists.line.truncate(random.pick(&[0, 1, MOST - 1, MOST - 1, waiting])),
        5 => lists.aside.truncate(random.pick(&[0, 1, MOST - 1, MOST - 1, resting])),
        6 => {
            let past = random.pick(&[1, 2, 32, 33, usize::MAX - 1, usize::MAX]);
            lists.waiting = random.pick(&[lists.waiting.saturating_add(past), past, lists.line.len() + 1]);
        }
        7 => {
            let past = random.pick(&[1, 2, 32, 33, usize::MAX - 1, usize::MAX]);
            lists.resting = random.pick(&[lists.resting.saturating_add(past), past, lists.aside.len() + 1]);
        }
        _ => many_entries(random, lists),
    }
}

/// As many entries as there may be or a few more, each by an owner of its own: the line with steps, the list set aside without.
fn many_entries(random: &mut Random, lists: &mut Lists) {
    let (all, some) = (random.pick(&[31, 32, 33, 34]), random.below(33));
    lists.waiting = random.pick(&[all, all / 2, some.min(all), 0]);
    lists.resting = all - lists.waiting;
    while lists.line.len() < lists.waiting {
        lists.line.push(made_up(random));
    }
    while lists.aside.len() < lists.resting {
        lists.aside.push(made_up(random));
    }
    let taken = lists.line.first().map_or(0, |front| front.owner);
    let mut owner = taken;
    for entry in lists.line[..lists.waiting].iter_mut().skip(1) {
        owner = owner.wrapping_add(1);
        (entry.owner, entry.allowance) = (owner, entry.allowance.max(1));
    }
    for entry in &mut lists.aside[..lists.resting] {
        owner = owner.wrapping_add(1);
        (entry.owner, entry.allowance) = (owner, 0);
    }
}

fn count(words: usize) -> u32 {
    u32::try_from(words).unwrap_or(u32::MAX)
}

/// One thing of what joins changed, as of a turn, or of the lists.
pub fn join_damage(random: &mut Random, queries: &[Query], call: &mut Join) {
    match random.small(100) {
        0..=34 => return lists_damage(random, &mut call.lists, Some(call.owner)),
        35..=54 => return super::damage::tables(random, &mut call.tables),
        _ => {}
    }
    let Some(query) = queries.iter().find(|query| query.words == call.plan) else {
        return;
    };
    let mut turn = Turn {
        tables: call.tables.clone(),
        survey: call.survey,
        plan: call.plan.clone(),
        state: call.state.clone(),
        given: call.state.len(),
        quantum: 1,
        threshold: Vec::new(),
        output: Vec::new(),
    };
    turn.state.extend(random.words(2));
    super::damage::turn(random, query, &mut turn);
    let given = turn.given.min(turn.state.len());
    (call.tables, call.survey) = (turn.tables, turn.survey);
    (call.plan, call.state) = (turn.plan, turn.state[..given].to_vec());
}

/// One thing of the call, of its front entry or of the lists changed.
pub fn serve_damage(random: &mut Random, queries: &[Query], call: &mut Serve) {
    if call.lists.waiting == 0 || call.lists.line.is_empty() || random.chance(25) {
        return match random.small(9) {
            0..=2 => super::damage::tables(random, &mut call.tables),
            8 => call.survey = woods::no_survey(random, call.survey),
            3 => call.quantum = random.pick(&[0, 1_000_001, u32::MAX]),
            _ => lists_damage(random, &mut call.lists, None),
        };
    }
    let front = call.lists.line[0].clone();
    let planned = front.plan.get(..front.planned as usize).unwrap_or_default();
    let Some(query) = queries.iter().find(|query| query.words == planned) else {
        return;
    };
    let mut turn = turn_of(call, &front, call.quantum);
    super::damage::turn(random, query, &mut turn);
    let entry = &mut call.lists.line[0];
    // a plan that does not fit an entry is a count past the array
    entry.planned = count(turn.plan.len());
    let room = turn.plan.len().min(PLAN_ROOM);
    entry.plan[..room].copy_from_slice(&turn.plan[..room]);
    if random.chance(5) {
        entry.planned = random.pick(&[257, 1 << 16, u32::MAX]);
    }
    let words = turn.state.len().min(STATE_ROOM);
    entry.state[..words].copy_from_slice(&turn.state[..words]);
    entry.saved = count(turn.given);
    (call.tables, call.survey, call.quantum) = (turn.tables, turn.survey, turn.quantum);
    (call.threshold, call.output) = (turn.threshold, turn.output);
}

/// One thing of a top-up or of the lists changed.
pub fn top_up_damage(random: &mut Random, call: &mut TopUp) {
    match random.small(4) {
        0 => call.amount = 0,
        1 => call.owner = random.small(50),
        _ => lists_damage(random, &mut call.lists, None),
    }
}
