//! Regions: one plan over many tables, their turns cut anywhere, mixed and handed in out of order, some of them twice, with thresholds; the merged
//! list is that of one evaluation over the rows that all tables deliver, in the sequence of the tables.

use crate::checking::{for_each_seed, Tally};
use crate::client::{built, survey};
use crate::evaluation::calls::{self, Query};
use crate::evaluation::lists;
use crate::evaluation::plan::Ending;
use crate::inputs::plans;
use crate::inputs::random::Random;
use crate::inputs::woods::wood;
use sotjarn::{Plan, Region, Turn};

/// The same plan over other tables.
fn queries(random: &mut Random, first: Query, many: usize) -> Vec<Query> {
    let words = first.words.clone();
    let mut all = vec![first];
    while all.len() < many {
        let rows = random.pick(&[0, 3, 10, 25]);
        let tables = wood(random, rows);
        if let Ok(Some(mut query)) = calls::query(&tables, &words, 1_000) {
            query.survey = all.len() as u32;
            all.push(query);
        }
    }
    all
}

/// What one evaluation gives over the rows that all tables deliver in their first steps; closed where a run is at its end.
fn expected(queries: &[Query], most: &[usize]) -> Vec<u32> {
    let over = queries.iter().zip(most).any(|(query, &most)| most >= query.run.steps());
    let delivered: Vec<&[u32]> = queries
        .iter()
        .zip(most)
        .flat_map(|(query, &most)| query.run.delivered.iter().take(most).flatten().map(|row| &row[..]))
        .collect();
    match over {
        true => lists::last_list(&queries[0].plan, &delivered, &[]),
        false => lists::list(&queries[0].plan, &delivered, &[]),
    }
}

/// A table's query under way, its turns so far, and whether they are handed in.
struct Asked<'q> {
    query: sotjarn::Query<'q>,
    turns: usize,
    waiting: Vec<(usize, Turn)>,
}

/// Makes one turn of a table, with a threshold or without.
fn ask(random: &mut Random, asked: &mut Asked, plan: &Plan, threshold: &[u32]) {
    let mut turns = asked
        .query
        .turns(random.between(1, 60) as u32, plan.least_output() + random.below(30));
    turns.set_threshold(threshold);
    let turn = turns.next().expect("the query goes on").expect("the turn is served");
    asked.waiting.push((asked.turns, turn));
    asked.turns += 1;
}

#[test]
fn every_mix_of_tables_and_turns_gives_one_evaluation_over_all_rows() {
    let tally = Tally::default();
    for_each_seed(3000, |random| {
        let many = random.pick(&[1, 2, 2, 3, 5, 12, 40]);
        let first = plans::short_query(random);
        let queries = queries(random, first, many);
        let plan = built(&queries[0].plan);
        let with_thresholds = random.chance(50);
        let mut region = Region::new(&plan, many);
        let mut asked: Vec<Asked> = queries
            .iter()
            .map(|query| Asked {
                query: sotjarn::Query::open(survey(query), plan.words()).expect("the opening is accepted"),
                turns: 0,
                waiting: Vec::new(),
            })
            .collect();
        while !region.is_finished() {
            let table = random.below(many);
            let hand_in = asked[table].query.is_done() || asked[table].waiting.len() > random.below(3);
            if !hand_in {
                let threshold = if with_thresholds {
                    region.threshold(table)
                } else {
                    Vec::new()
                };
                ask(random, &mut asked[table], &plan, &threshold);
            } else if !asked[table].waiting.is_empty() {
                let at = random.below(asked[table].waiting.len());
                let (number, turn) = asked[table].waiting.swap_remove(at);
                assert_eq!(region.receive(table, number, &turn), Ok(true));
                if random.chance(20) {
                    assert_eq!(region.receive(table, number, &turn), Ok(false));
                }
            }
        }
        let whole: Vec<usize> = queries.iter().map(|query| query.run.steps()).collect();
        let merged = region.merged().expect("short queries leave no range");
        assert_eq!(merged.words(), expected(&queries, &whole));
        let steps: usize = whole.iter().sum();
        match queries[0].plan.ending {
            Ending::Top(..) if with_thresholds => assert!(region.steps() <= steps as u64),
            _ => assert_eq!(region.steps(), steps as u64),
        }
        let size = if many > 2 { "many" } else { "few" };
        let ending = match queries[0].plan.ending {
            Ending::Rows(_) => "rows",
            Ending::Top(..) => "best-of",
            Ending::Group(..) => "groups",
            Ending::Registers(_) => "registers",
        };
        tally.note::<()>(&Ok(()), &format!("{ending} of {size} tables"));
        let spared = with_thresholds && region.steps() < steps as u64;
        tally.note::<()>(&Ok(()), if spared { "steps spared" } else { "no steps spared" });
    });
    tally.came(
        &[
            "rows of many tables",
            "best-of of many tables",
            "groups of many tables",
            "registers of many tables",
        ],
        40,
    );
    tally.came(&["steps spared"], 20);
}

#[test]
fn before_its_end_the_list_is_that_of_the_runs_so_far() {
    for_each_seed(600, |random| {
        let many = random.pick(&[1, 2, 3, 5]);
        let first = plans::short_query(random);
        let queries = queries(random, first, many);
        let plan = built(&queries[0].plan);
        let mut region = Region::new(&plan, many);
        let mut most = vec![0; many];
        for (table, query) in queries.iter().enumerate() {
            let turns = random.below(4);
            let mut asked = sotjarn::Query::open(survey(query), plan.words()).expect("the opening is accepted");
            for (number, turn) in asked
                .turns(random.between(1, 40) as u32, plan.least_output() + 60)
                .take(turns)
                .enumerate()
            {
                let turn = turn.expect("the turn is served");
                most[table] += turn.steps as usize;
                region.receive(table, number, &turn).expect("the list is taken");
            }
        }
        if most.iter().sum::<usize>() > 0 || !matches!(queries[0].plan.ending, Ending::Registers(_)) {
            assert_eq!(region.merged().expect("no range is left").words(), expected(&queries, &most));
        }
        let done = queries
            .iter()
            .zip(&most)
            .filter(|(query, &most)| query.run.steps() == most)
            .count();
        assert_eq!(region.tables_done(), done);
    });
}
