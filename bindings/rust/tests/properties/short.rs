//! Short queries, many of them: cut, from any state, with lists that no run made, and damaged.

use crate::checking::{check_merge, check_open, check_turn, cut, for_each_seed, Tally};
use crate::inputs::{calls, damage, plans};

#[test]
fn every_cut_adds_up_to_the_uncut_run() {
    let tally = Tally::default();
    for_each_seed(4000, |random| {
        let query = plans::short_query(random);
        let steps = query.run.steps();
        cut(&tally, random, &query, steps.div_ceil(2), true);
        cut(&tally, random, &query, (steps / 4).max(2), false);
        if steps <= 40 {
            cut(&tally, random, &query, 1, steps % 2 == 0);
        }
    });
    tally.came(&["done", "spent", "full", "merged"], 1000);
    tally.came(&["nothing done", "nothing merged"], 500);
}

#[test]
fn turns_go_on_from_every_state_of_the_run() {
    let tally = Tally::default();
    for_each_seed(8000, |random| {
        let query = plans::short_query(random);
        for _ in 0..4 {
            check_turn(&tally, &query, &calls::turn(random, &query)).expect("the turn is served");
        }
    });
    tally.came(&["done", "spent", "full"], 1000);
    tally.came(&["nothing done"], 500);
}

#[test]
fn merges_add_up_lists_that_no_run_made() {
    let tally = Tally::default();
    for_each_seed(6000, |random| {
        let query = plans::short_query(random);
        for _ in 0..4 {
            check_merge(&tally, &calls::merge(random, &query));
        }
    });
    tally.came(&["merged", "refused by 12", "refused by 13", "refused by 14"], 1000);
    tally.came(&["nothing merged"], 100);
}

#[test]
fn damaged_calls_are_refused_by_the_first_test_that_fails() {
    let tally = Tally::default();
    for_each_seed(8000, |random| {
        let query = plans::short_query(random);
        for _ in 0..4 {
            let mut call = calls::open(random, &query);
            (0..random.pick(&[1, 1, 1, 2])).for_each(|_| damage::open(random, &query, &mut call));
            check_open(&tally, &query, &call);
        }
        for _ in 0..6 {
            let mut call = calls::turn(random, &query);
            (0..random.pick(&[1, 1, 1, 2])).for_each(|_| damage::turn(random, &query, &mut call));
            check_turn(&tally, &query, &call);
        }
        for _ in 0..4 {
            let mut call = calls::merge(random, &query);
            (0..random.pick(&[1, 1, 1, 2])).for_each(|_| damage::merge(random, &query, &mut call));
            check_merge(&tally, &call);
        }
    });
    let refused: Vec<String> = (1..=14)
        .chain([22, 23])
        .map(|number| format!("refused by {number}"))
        .collect();
    tally.came(&refused.iter().map(|what| &what[..]).collect::<Vec<_>>(), 200);
    tally.came(&["opened", "done", "spent", "full", "merged"], 100);
}
