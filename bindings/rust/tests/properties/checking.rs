//! Calls made and compared, counted by what came of them.

use std::cell::RefCell;
use std::collections::BTreeMap;
use std::env;
use std::panic::{catch_unwind, AssertUnwindSafe};

use crate::evaluation::calls::{self, Answer, How, Merge, Open, Query, Turn};
use crate::evaluation::lists;
use crate::evaluation::plan::Ending;
use crate::evaluation::tables::Tables;
use crate::inputs::random::Random;
use crate::{guarded, inputs};

/// The most steps of a run that a damaged plan or damaged tables may have; else the call is left out.
const MOST_STEPS: usize = 60_000;

fn setting(name: &str) -> Option<u64> {
    env::var(name).ok().and_then(|text| text.parse().ok())
}

/// Runs a test for each seed; a failure says which.
pub fn for_each_seed(cases: u64, test: impl Fn(&mut Random)) {
    let first = setting("SOTJARN_SEED").unwrap_or(0);
    for seed in first..first + setting("SOTJARN_CASES").unwrap_or(cases) {
        let made = catch_unwind(AssertUnwindSafe(|| test(&mut Random::new(seed))));
        assert!(made.is_ok(), "the case with SOTJARN_SEED={seed} SOTJARN_CASES=1 failed");
    }
}

/// How often each number refused, and each ending came.
#[derive(Default)]
pub struct Tally(RefCell<BTreeMap<String, u32>>);

impl Tally {
    pub fn note<T>(&self, answer: &Result<T, u32>, served: &str) {
        let what = answer
            .as_ref()
            .map_or_else(|number| format!("refused by {number}"), |_| served.to_string());
        *self.0.borrow_mut().entry(what).or_default() += 1;
    }

    /// Counts a written list that is the total of nothing.
    fn note_nothing(&self, list: &[u32], by: &str) {
        if list == lists::NOTHING {
            *self.0.borrow_mut().entry(format!("nothing {by}")).or_default() += 1;
        }
    }

    /// Tests that these came often enough, unless a setting changed the number of cases.
    pub fn came(&self, whats: &[&str], at_least: u32) {
        println!("{:?}", self.0.borrow());
        for &what in whats {
            let times = self.0.borrow().get(what).copied().unwrap_or(0);
            assert!(
                times >= at_least || setting("SOTJARN_CASES").is_some(),
                "'{what}' came only {times} times"
            );
        }
    }
}

/// What the evaluation answers to a call over tables and a plan; none where their run is too long to work out.
fn right<T>(base: &Query, tables: &Tables, plan: &[u32], served: impl Fn(&Query) -> T, refused: impl Fn(u32) -> T) -> Option<T> {
    if *tables == base.tables && plan == base.words {
        return Some(served(base));
    }
    match calls::query(tables, plan, MOST_STEPS) {
        Ok(query) => query.as_ref().map(served),
        Err(number) => Some(refused(number)),
    }
}

/// An opening; the state buffer at exit if it was served.
pub fn check_open(tally: &Tally, base: &Query, call: &Open) -> Option<Vec<u32>> {
    let refused = |number| (Err(number), call.state.clone());
    let right = right(base, &call.tables, &call.plan, |query| calls::open(query, call), refused)?;
    assert!(
        guarded::open(call) == right,
        "right: {right:x?}\nmade: {:x?}\n{call:x?}",
        guarded::open(call)
    );
    tally.note(&right.0, "opened");
    right.0.ok().map(|_| right.1)
}

/// A turn; its answer, and state and output at exit, if it was served.
pub fn check_turn(tally: &Tally, base: &Query, call: &Turn) -> Option<(Answer, Vec<u32>, Vec<u32>)> {
    let refused = |number| (Err(number), call.state.clone(), call.output.clone());
    let right = right(base, &call.tables, &call.plan, |query| calls::turn(query, call), refused)?;
    assert!(
        guarded::turn(call) == right,
        "right: {right:x?}\nmade: {:x?}\n{call:x?}",
        guarded::turn(call)
    );
    let ending = match right.0 {
        Ok((_, How::Done, ..)) => "done",
        Ok((_, How::Spent, ..)) => "spent",
        _ => "full",
    };
    tally.note(&right.0, ending);
    right.0.ok().map(|answer| {
        tally.note_nothing(&right.2[..answer.3], ending);
        (answer, right.1, right.2)
    })
}

/// A merge; the words of the merged list, and the kept buffer at exit, if it was served.
pub fn check_merge(tally: &Tally, call: &Merge) -> Option<(usize, Vec<u32>)> {
    let right = calls::merge(call);
    assert!(
        guarded::merge(call) == right,
        "right: {right:x?}\nmade: {:x?}\n{call:x?}",
        guarded::merge(call)
    );
    tally.note(&right.0, "merged");
    right.0.ok().map(|words| {
        tally.note_nothing(&right.1[..words], "merged");
        (words, right.1)
    })
}

/// The list of the whole run.
pub fn whole_list(query: &Query) -> Vec<u32> {
    let delivered: Vec<&[u32]> = query.run.delivered.iter().flatten().map(|row| &row[..]).collect();
    lists::last_list(&query.plan, &delivered, &[])
}

/// Runs a query from its opening to its end, each list taken as it comes, and compares with the uncut run.
pub fn cut(tally: &Tally, random: &mut Random, query: &Query, most_quantum: usize, with_threshold: bool) {
    let whole = whole_list(query);
    let rows = matches!(query.plan.ending, Ending::Rows(_));
    let best = matches!(query.plan.ending, Ending::Top(..));
    let mut state = check_open(tally, query, &inputs::calls::open(random, query)).expect("the opening is accepted");
    let (mut given, mut steps, mut held) = (query.saved(0).len(), 0, 0);
    let (mut kept, mut threshold) = (random.words(if rows { 0 } else { whole.len() + 2 }), Vec::new());
    let mut sent = false;
    loop {
        sent |= !Vec::is_empty(&threshold);
        let call = Turn {
            tables: query.tables.clone(),
            survey: query.survey,
            plan: query.words.clone(),
            state,
            given,
            quantum: random.between(1, most_quantum) as u32,
            threshold,
            output: inputs::calls::output(random, query),
        };
        let ((taken, how, state_words, list_words), state_now, output) =
            check_turn(tally, query, &call).expect("the turn is served");
        let list = output[..list_words].to_vec();
        if rows {
            kept.extend(list);
            held = kept.len();
        } else {
            let call = Merge {
                plan: query.words.clone(),
                kept,
                given: held,
                list,
            };
            (held, kept) = check_merge(tally, &call).expect("the merge is accepted");
        }
        let full = best && with_threshold && held == query.plan.least_output();
        threshold = if full {
            kept[held - query.plan.width()..held].to_vec()
        } else {
            Vec::new()
        };
        (state, given, steps) = (state_now, state_words, steps + taken as usize);
        if how == How::Done {
            break;
        }
    }
    // A threshold prunes: the steps are no more, and the list is the same.
    assert!(if sent {
        steps <= query.run.steps()
    } else {
        steps == query.run.steps()
    });
    assert_eq!(given, 0);
    assert_eq!(kept[..held], whole);
}
