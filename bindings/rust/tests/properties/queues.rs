//! Queues of several owners: calls of any queue, damaged ones, and whole histories: accounts, fair turns, and every owner's own list.

use std::collections::BTreeMap;

use crate::checking::{for_each_seed, whole_list, Tally};
use crate::evaluation::calls::{How, Query};
use crate::evaluation::lists;
use crate::evaluation::plan::Ending;
use crate::evaluation::queues::{self as evaluation, Join, Lists, Serve, Service, TopUp, MOST};
use crate::guarded;
use crate::inputs::queues as inputs;
use crate::inputs::random::Random;
use sotjarn::{plan_in, state_in, Queue, Refusal, Tables, TurnEnding, MOST_ENTRIES, NO_ENTRY};

/// The most steps of a damaged plan's run; else the call is left out.
const MOST_STEPS: usize = 60_000;

pub fn check_join(tally: &Tally, call: &Join) -> Option<Lists> {
    let right = evaluation::join(call, MOST_STEPS)?;
    let made = guarded::join(call);
    assert!(made == right, "right: {right:x?}\nmade: {made:x?}\n{call:x?}");
    tally.note(&right.0, if call.allowance == 0 { "joined aside" } else { "joined" });
    right.0.ok().map(|_| right.1)
}

pub fn check_serve(tally: &Tally, call: &Serve) -> Option<(Service, Lists, Vec<u32>)> {
    let right = evaluation::serve(call, MOST_STEPS)?;
    let made = guarded::serve(call);
    assert!(made == right, "right: {right:x?}\nmade: {made:x?}\n{call:x?}");
    let ending = match right.0 {
        Ok(((_, How::Done, ..), ..)) => "done",
        Ok((_, _, 0, _)) => "set aside",
        Ok(((_, How::Spent, ..), ..)) => "spent",
        _ => "full",
    };
    tally.note(&right.0, ending);
    right.0.ok().map(|service| (service, right.1, right.2))
}

fn check_top_up(tally: &Tally, call: &TopUp) -> Option<Lists> {
    let (right, made) = (evaluation::top_up(call), guarded::top_up(call));
    assert!(made == right, "right: {right:x?}\nmade: {made:x?}\n{call:x?}");
    tally.note(&right.0, "topped up");
    right.0.ok().map(|_| right.1)
}

#[test]
fn calls_of_any_queue_are_made_as_the_rules_say() {
    let tally = Tally::default();
    for_each_seed(4000, |random| {
        let many = random.between(1, 4);
        let queries = inputs::queries(random, many);
        check_join(&tally, &inputs::join(random, &queries, MOST)).expect("the query joins");
        for _ in 0..3 {
            let lists = inputs::lists(random, &queries, MOST);
            let call = inputs::serve(random, &queries, lists);
            assert_eq!(check_serve(&tally, &call).is_none(), call.lists.waiting == 0);
            let lists = inputs::lists(random, &queries, MOST);
            let call = inputs::top_up(random, lists);
            assert_eq!(check_top_up(&tally, &call).is_none(), call.lists.resting == 0);
        }
    });
    tally.came(&["joined", "joined aside", "done", "spent", "set aside", "topped up"], 500);
    tally.came(&["full"], 100);
}

/// Every refusal of a call must come so often, in runs of the usual size.
fn all_came(tally: &Tally, numbers: &[u32]) {
    let refused: Vec<String> = numbers.iter().map(|number| format!("refused by {number}")).collect();
    tally.came(&refused.iter().map(|what| &what[..]).collect::<Vec<_>>(), 100);
}

#[test]
fn damaged_calls_of_queues_are_refused_by_the_first_test_that_fails() {
    let (joins, serves, top_ups) = (Tally::default(), Tally::default(), Tally::default());
    for_each_seed(5000, |random| {
        let many = random.between(1, 4);
        let queries = inputs::queries(random, many);
        for _ in 0..4 {
            let mut call = inputs::join(random, &queries, MOST);
            (0..random.pick(&[1, 1, 1, 2])).for_each(|_| inputs::join_damage(random, &queries, &mut call));
            check_join(&joins, &call);
        }
        for _ in 0..6 {
            let lists = inputs::lists(random, &queries, MOST);
            let mut call = inputs::serve(random, &queries, lists);
            (0..random.pick(&[1, 1, 1, 2])).for_each(|_| inputs::serve_damage(random, &queries, &mut call));
            check_serve(&serves, &call);
        }
        for _ in 0..2 {
            let lists = inputs::lists(random, &queries, MOST);
            let mut call = inputs::top_up(random, lists);
            (0..random.pick(&[1, 1, 1, 2])).for_each(|_| inputs::top_up_damage(random, &mut call));
            check_top_up(&top_ups, &call);
        }
    });
    all_came(&joins, &[1, 2, 23, 3, 4, 5, 6, 9, 22, 10, 17, 18]);
    all_came(&serves, &[1, 2, 23, 3, 4, 5, 6, 7, 8, 9, 22, 10, 11, 17, 18, 19]);
    all_came(&top_ups, &[17, 18]);
}

/// What became of an owner so far.
struct Owner {
    query: usize,
    granted: u64,
    steps: u64,
    taken: Vec<u32>,
}

/// A queue under random calls, by owners that join, are served and topped up, until all are done.
struct History<'a> {
    queries: &'a [Query],
    lists: Lists,
    owners: BTreeMap<u32, Owner>,
    finished: usize,
    longest: usize,
    /// The turns that an owner in the line may have to wait for, at most.
    waits: BTreeMap<u32, usize>,
}

impl History<'_> {
    fn join(&mut self, tally: &Tally, random: &mut Random, owner: u32) {
        let query = random.below(self.queries.len());
        let Query {
            tables,
            survey,
            words,
            run,
            ..
        } = &self.queries[query];
        let call = Join {
            tables: tables.clone(),
            survey: *survey,
            lists: self.lists.clone(),
            owner,
            allowance: random.pick(&[0, 1, 5, run.steps() as u64, 1 << 33]),
            plan: words.clone(),
            state: run.saved(*survey, 0),
        };
        if self.owners.contains_key(&owner) || self.owners.len() == MOST {
            assert_eq!(check_join(tally, &call), None);
            return;
        }
        self.lists = check_join(tally, &call).expect("the query joins");
        let granted = call.allowance;
        self.owners.insert(
            owner,
            Owner {
                query,
                granted,
                steps: 0,
                taken: Vec::new(),
            },
        );
        self.comes_to_the_line(owner, granted);
    }

    fn comes_to_the_line(&mut self, owner: u32, granted: u64) {
        if granted > 0 {
            self.waits.insert(owner, self.lists.waiting - 1);
        }
    }

    fn top_up(&mut self, tally: &Tally, random: &mut Random, owner: u32) {
        let call = TopUp {
            lists: self.lists.clone(),
            owner,
            amount: random.pick(&[0, 1, 20, 1 << 33]),
        };
        if let Some(lists) = check_top_up(tally, &call) {
            self.lists = lists;
            self.owners.get_mut(&owner).expect("it has joined").granted += call.amount;
            self.comes_to_the_line(owner, call.amount);
        }
    }

    /// A turn of the front entry: taken into its owner's list, and everybody behind it moves up by one.
    fn serve(&mut self, tally: &Tally, random: &mut Random) {
        let mut call = inputs::serve(random, self.queries, self.lists.clone());
        (call.threshold, call.quantum) = (Vec::new(), random.pick(&[1, 2, 7, 100, 1_000_000]));
        let Some(((answer, owner, left, _), lists, output)) = check_serve(tally, &call) else {
            return assert_eq!(self.lists.waiting, 0);
        };
        let (steps, how, _, list_words) = answer;
        self.lists = lists;
        assert_eq!(
            self.waits.remove(&owner),
            Some(0),
            "the owner's turn comes after as many turns as its place was"
        );
        self.waits.values_mut().for_each(|turns| *turns -= 1);
        let known = self.owners.get_mut(&owner).expect("it has joined");
        known.steps += u64::from(steps);
        assert_eq!(known.granted, known.steps + left, "what was granted is taken or left");
        let query = &self.queries[known.query];
        known.taken = match query.plan.ending {
            Ending::Rows(_) => [&known.taken, &output[..list_words]].concat(),
            _ => lists::merged(&query.plan, &known.taken, &output[..list_words]).expect("the lists merge"),
        };
        if how == How::Done {
            assert_eq!(known.taken, whole_list(query), "the owner's list is that of its query alone");
            assert_eq!(known.steps, query.run.steps() as u64);
            self.owners.remove(&owner);
            self.finished += 1;
        } else if left > 0 {
            let place = self.lists.waiting - 1;
            self.waits.insert(owner, place);
            self.longest = self.longest.max(place);
        }
    }
}

#[test]
fn every_owner_gets_its_own_list_its_steps_and_its_turn() {
    let (tally, finished, longest) = (Tally::default(), std::cell::Cell::new(0), std::cell::Cell::new(0));
    for_each_seed(150, |random| {
        let queries = inputs::queries(random, 6);
        let mut history = History {
            lists: inputs::lists(random, &queries, 1),
            queries: &queries,
            owners: BTreeMap::new(),
            finished: 0,
            longest: 0,
            waits: BTreeMap::new(),
        };
        (history.lists.waiting, history.lists.resting) = (0, 0);
        let many = random.pick(&[1, 3, 12, 40]);
        for _ in 0..300 {
            let owner = random.small(many);
            match random.small(10) {
                0..=2 => history.join(&tally, random, owner),
                3 | 4 => history.top_up(&tally, random, owner),
                _ => history.serve(&tally, random),
            }
        }
        finished.set(finished.get() + history.finished);
        longest.set(longest.get().max(history.longest));
    });
    tally.came(
        &[
            "joined",
            "joined aside",
            "done",
            "spent",
            "full",
            "set aside",
            "topped up",
            "refused by 17",
        ],
        100,
    );
    println!(
        "{} queries finished; the longest wait was {} turns",
        finished.get(),
        longest.get()
    );
}

#[test]
fn a_queue_holds_both_lists() {
    for_each_seed(600, |random| {
        let queries = inputs::queries(random, 3);
        let Query {
            tables, survey: number, ..
        } = &queries[0];
        let tables = Tables {
            rows: &tables.rows,
            pos: &tables.pos,
            osp: &tables.osp,
        };
        let survey = tables.survey(*number);
        let mut queue = Queue::new();
        for owner in 0..MOST_ENTRIES as u32 {
            let query = &queries[random.below(3)];
            let (steps, start) = (random.pick(&[0, 1, 1000]), query.saved(0));
            assert_eq!(queue.join(survey, owner, steps, &query.words, &start), Ok(()));
            let entry = queue.entry(owner).expect("it waits");
            assert_eq!(
                (plan_in(entry), state_in(entry), entry.allowance),
                (&query.words[..], &start[..], steps)
            );
            assert_eq!(queue.join(survey, owner, 5, &query.words, &start), Err(Refusal::Entries));
        }
        let (words, start) = (&queries[0].words, queries[0].saved(0));
        assert_eq!(queue.join(survey, 99, 5, words, &start), Err(Refusal::QueueRoom));
        assert_eq!(queue.line().len() + queue.set_aside().len(), MOST_ENTRIES);
        let mut output = vec![0; 20_000];
        while let Some(front) = queue.line().first().map(|entry| entry.owner) {
            let served = queue.serve(survey, 50, &[], &mut output).expect("it is served");
            assert_eq!(served.owner, front);
            match (queue.entry(front), served.turned.ending) {
                (None, TurnEnding::Done) => {}
                (Some(entry), TurnEnding::Spent | TurnEnding::Full) => assert_eq!(entry.allowance, served.left),
                other => panic!("{other:?}"),
            }
            if let (Some(entry), true) = (queue.set_aside().first(), random.chance(50)) {
                let owner = entry.owner;
                assert_eq!(queue.top_up(owner, 100), Ok(()));
                assert_eq!(
                    queue.line().last().map(|entry| (entry.owner, entry.allowance)),
                    Some((owner, 100))
                );
            }
        }
        assert_eq!(queue.serve(survey, 50, &[], &mut output), Err(Refusal::EmptyLine));
        assert_eq!(queue.top_up(200, 1), Err(Refusal::Entries));
    });
    assert_eq!((plan_in(&NO_ENTRY), state_in(&NO_ENTRY)), (&[][..], &[][..]));
}
