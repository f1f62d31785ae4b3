//! Long queries: large woods, up to the most rows, and up to the most steps.

use crate::checking::{check_open, check_turn, cut, for_each_seed, Tally};
use crate::evaluation::calls::{self, How, Open, Query, Turn};
use crate::evaluation::plan::{Branch, Condition, Ending, Plan};
use crate::evaluation::tables::Tables;
use crate::evaluation::words::*;
use crate::inputs::random::Random;
use crate::inputs::{plans, woods};

/// Stems with their stands (?1) and diameters (?2), from a diameter on.
fn stems_plan(least: i32, ending: Ending) -> Plan {
    let patterns = vec![[variable(0), name(10), variable(1)], [variable(0), name(12), variable(2)]];
    Plan {
        year: None,
        branches: vec![Branch {
            patterns,
            condition: Condition::Compare(5, variable(2), number(least)),
        }],
        ending,
    }
}

fn accepted(tables: &Tables, plan: &Plan, most: usize) -> Query {
    calls::query(tables, &plan.words(), most)
        .expect("tables and plan are accepted")
        .expect("the run is worked out")
}

#[test]
fn random_plans_over_large_woods() {
    let tally = Tally::default();
    for_each_seed(40, |random| {
        let query = plans::query(random, &[500, 2_000, 9_000], 60_000, 200);
        let quantum = query.run.steps().div_ceil(5);
        cut(&tally, random, &query, quantum, true);
    });
    tally.came(&["done", "spent", "full"], 20);
}

#[test]
fn the_largest_wood_is_cut_by_every_ending() {
    let tally = Tally::default();
    let random = &mut Random::new(65_536);
    let tables = woods::stems(random, 32_768);
    assert_eq!(tables.rows.len(), 4 * 65_536);
    for ending in [
        Ending::Rows(vec![0, 2]),
        Ending::Top(10, vec![0, 2], vec![(true, 2)]),
        Ending::Top(0, vec![2, 1], vec![(false, 1), (true, 2)]),
        Ending::Group(vec![1], 2),
        Ending::Group(vec![], 2),
        Ending::Registers(2),
    ] {
        let rows = matches!(ending, Ending::Rows(_));
        let query = accepted(&tables, &stems_plan(if rows { 617 } else { 70 }, ending), 200_000);
        assert_eq!(query.run.steps(), 98_305);
        cut(&tally, random, &query, 40_000, true);
    }
}

#[test]
fn one_row_more_is_refused() {
    let tally = Tally::default();
    let row = |stem| [number(2026), name(stem), name(10), name(100)];
    for (many, right) in [(65_535, Ok(4)), (65_536, Ok(4)), (65_537, Err(1))] {
        let tables = Tables::of((0..many).map(row).collect());
        let plan = stems_plan(70, Ending::Rows(vec![0])).words();
        let call = Open {
            tables,
            survey: 7,
            plan,
            state: vec![0; 11],
        };
        assert_eq!(crate::guarded::open(&call).0, right, "{many} rows");
    }
    let few = accepted(&Tables::of(vec![row(1)]), &stems_plan(70, Ending::Rows(vec![0])), 100);
    let (plan, rows) = (few.words.clone(), vec![1; 4 * 65_537]);
    let tables = Tables {
        pos: vec![0; 65_537],
        osp: vec![0; 65_537],
        rows,
    };
    check_open(
        &tally,
        &few,
        &Open {
            tables,
            survey: 7,
            plan,
            state: vec![0; 11],
        },
    );
}

#[test]
fn a_turn_takes_up_to_a_million_steps() {
    let tally = Tally::default();
    let tables = Tables::of(
        (0..1_050)
            .map(|stem| [number(2026), name(stem), name(10), name(100)])
            .collect(),
    );
    let patterns = vec![
        [variable(0), variable(1), variable(2)],
        [variable(3), variable(4), variable(5)],
    ];
    let branches = vec![Branch {
        patterns,
        condition: Condition::Compare(0, variable(0), variable(3)),
    }];
    let query = accepted(
        &tables,
        &Plan {
            year: None,
            branches,
            ending: Ending::Group(vec![], 0),
        },
        2_000_000,
    );
    assert_eq!(query.run.steps(), 1_050 * (1 + 1_050 + 1) + 1);
    for (quantum, right) in [
        (999_999, Ok((999_999, How::Spent, 5, 8))),
        (1_000_000, Ok((1_000_000, How::Spent, 5, 8))),
        (1_000_001, Err(8)),
        (0, Err(8)),
    ] {
        let (tables, plan, mut state) = (query.tables.clone(), query.words.clone(), query.saved(0));
        state.resize(11, 0);
        let call = Turn {
            tables,
            survey: query.survey,
            plan,
            state,
            given: 4,
            quantum,
            threshold: vec![],
            output: vec![0; 8],
        };
        assert_eq!(crate::guarded::turn(&call).0, right);
        check_turn(&tally, &query, &call);
    }
}
