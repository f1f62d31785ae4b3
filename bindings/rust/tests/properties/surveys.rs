//! A state belongs to a survey: which calls 22 refuses, that it stands after 9 and before 10, and that a number changes nothing else.

use crate::checking::{check_open, check_turn, for_each_seed, Tally};
use crate::evaluation::calls::{self as evaluation, Query, Turn};
use crate::evaluation::queues::{Join, Serve, MOST};
use crate::evaluation::words::*;
use crate::inputs::random::Random;
use crate::inputs::woods::{no_survey, survey};
use crate::inputs::{calls, plans, queues};
use crate::queues::{check_join, check_serve};

/// What is wrong with the number of a call, and with the words behind the survey's in a state.
#[derive(Clone, Copy, Debug, PartialEq)]
enum Number {
    Right,
    /// Above 28 bits, and mostly right in the low 28.
    High,
    /// That of another survey.
    Other,
}

#[derive(Clone, Copy, Debug, PartialEq)]
enum Behind {
    Right,
    /// Too short, or a word of a wrong kind: also the survey's.
    Shape,
    /// The run does not pass through it.
    Places,
}

const NUMBERS: [Number; 3] = [Number::Right, Number::High, Number::Other];
const BEHINDS: [Behind; 3] = [Behind::Right, Behind::Shape, Behind::Places];

/// By which of 9, 22 and 10 such a state is refused, if by one.
fn refusal(number: Number, behind: Behind) -> Option<u32> {
    match (number, behind) {
        (_, Behind::Shape) => Some(9),
        (Number::High | Number::Other, _) => Some(22),
        (Number::Right, Behind::Places) => Some(10),
        (Number::Right, Behind::Right) => None,
    }
}

fn numbered(random: &mut Random, right: u32, number: Number) -> u32 {
    match number {
        Number::Right => right,
        Number::High => no_survey(random, right),
        Number::Other => loop {
            let (some, bit) = (survey(random), random.small(28));
            let other = random.pick(&[some, right ^ 1, right ^ 1 << bit]);
            if other != right {
                return other;
            }
        },
    }
}

/// The words of a state of the query, under its own number.
fn state(random: &mut Random, query: &Query, behind: Behind) -> Vec<u32> {
    let mut words = query.saved(random.below(query.run.steps()));
    let at = random.below(words.len());
    match behind {
        Behind::Right => {}
        Behind::Shape => match random.small(3) {
            0 => words.truncate(at),
            1 => words.push(marked(PLACE, 0)),
            _ => words[at] ^= 1 << 28,
        },
        Behind::Places => {
            while evaluation::state_start(query, query.survey, &words) != Err(10) {
                words = query.saved(random.below(query.run.steps()));
                let (at, rows) = (random.between(2, words.len() - 1), query.tables.pos.len() as u32);
                let near = random.small(rows + 2);
                words[at] = marked(PLACE, random.pick(&[near, rows + 1, MOST_COUNT]));
            }
        }
    }
    words
}

fn each_came(tally: &Tally, at_least: u32) {
    let all = NUMBERS
        .iter()
        .flat_map(|&number| BEHINDS.map(|behind| format!("{number:?} {behind:?}")));
    let all: Vec<String> = all.collect();
    tally.came(&all.iter().map(|what| &what[..]).collect::<Vec<_>>(), at_least);
}

#[test]
fn a_turn_tests_the_shape_then_the_number_then_the_places() {
    let (tally, calls_made) = (Tally::default(), Tally::default());
    for_each_seed(1200, |random| {
        let query = plans::short_query(random);
        for number in NUMBERS {
            for behind in BEHINDS {
                let words = state(random, &query, behind);
                let mut call = calls::turn(random, &query);
                call.given = words.len();
                call.state[..words.len().min(11)].copy_from_slice(&words[..words.len().min(11)]);
                call.state.extend(words.get(call.state.len()..).unwrap_or_default().to_vec());
                call.survey = numbered(random, query.survey, number);
                if random.chance(30) {
                    call.threshold = vec![variable(1)]; // 11 comes after them
                }
                let served = check_turn(&calls_made, &query, &call);
                let made = crate::guarded::turn(&call).0.err();
                let right = refusal(number, behind).or((served.is_none()).then_some(11));
                assert_eq!(made, right, "{call:x?}");
                tally.note::<()>(&Ok(()), &format!("{number:?} {behind:?}"));
            }
        }
    });
    each_came(&tally, 1000);
    calls_made.came(&["refused by 9", "refused by 22", "refused by 10", "refused by 11"], 100);
}

#[test]
fn opening_tests_the_buffer_and_then_the_number() {
    let tally = Tally::default();
    for_each_seed(1000, |random| {
        let query = plans::short_query(random);
        for (high, short) in [(false, false), (true, false), (false, true), (true, true)] {
            let mut call = calls::open(random, &query);
            if high {
                call.survey = no_survey(random, query.survey);
            }
            if short {
                call.state.truncate(random.pick(&[0, 3, 10, 10]));
            }
            let opened = check_open(&tally, &query, &call);
            assert_eq!(opened.is_some(), !high && !short);
            let word = opened.map(|state| state[0]);
            assert_eq!(word, (!high && !short).then_some(marked(SURVEY, query.survey)));
        }
    });
    tally.came(&["opened", "refused by 22", "refused by 7"], 1000);
}

#[test]
fn joining_and_serving_test_the_shape_then_the_number_then_the_places() {
    let (tally, joins, serves) = (Tally::default(), Tally::default(), Tally::default());
    for_each_seed(500, |random| {
        let many = random.between(1, 3);
        let queries = queues::queries(random, many);
        for number in NUMBERS {
            for behind in BEHINDS {
                let mut join = queues::join(random, &queries, MOST);
                let query = queries
                    .iter()
                    .find(|query| query.words == join.plan)
                    .expect("its plan is one of these");
                join.state = state(random, query, behind);
                join.survey = numbered(random, query.survey, number);
                check_joined(&joins, &join, refusal(number, behind));

                let lists = queues::lists(random, &queries, MOST);
                let mut serve = queues::serve(random, &queries, lists);
                serve.survey = numbered(random, query.survey, number);
                check_served(&serves, random, &queries, &mut serve, (number, behind));
                tally.note::<()>(&Ok(()), &format!("{number:?} {behind:?}"));
            }
        }
    });
    each_came(&tally, 500);
    joins.came(&["joined", "refused by 9", "refused by 22", "refused by 10"], 100);
    serves.came(
        &["done", "refused by 9", "refused by 22", "refused by 10", "refused by 19"],
        100,
    );
    serves.came(&["22 of an empty line", "22 of a front entry"], 100);
}

fn check_joined(tally: &Tally, call: &Join, right: Option<u32>) {
    check_join(tally, call);
    assert_eq!(crate::guarded::join(call).0.err(), right, "{call:x?}");
}

/// A serve whose front entry, if there is one, has such a state; with no entry only a number above 28 bits is refused by 22.
fn check_served(tally: &Tally, random: &mut Random, queries: &[Query], call: &mut Serve, (number, behind): (Number, Behind)) {
    let empty = call.lists.waiting == 0;
    if !empty {
        let front = &mut call.lists.line[0];
        let plan = &front.plan[..front.planned as usize];
        let query = queries
            .iter()
            .find(|query| query.words == plan)
            .expect("its plan is one of these");
        let words = state(random, query, behind);
        front.saved = words.len() as u32;
        front.state[..words.len()].copy_from_slice(&words);
    }
    let right = match empty {
        true => Some(if number == Number::High { 22 } else { 19 }),
        false => refusal(number, behind),
    };
    check_serve(tally, call);
    assert_eq!(crate::guarded::serve(call).0.err(), right, "{call:x?}");
    if right == Some(22) {
        let what = if empty { "22 of an empty line" } else { "22 of a front entry" };
        tally.note::<()>(&Ok(()), what);
    }
}

/// The same turn under another number: the same but for the first word of the state that it leaves.
#[test]
fn a_number_changes_the_first_word_of_a_state_alone() {
    let tally = Tally::default();
    for_each_seed(3000, |random| {
        let query = plans::short_query(random);
        let one = calls::turn(random, &query);
        let (mut other, number) = (one.clone(), survey(random));
        other.survey = number;
        other.state[0] = marked(SURVEY, number);
        let turned = [&one, &other].map(|call| check_turn(&tally, &query, call).expect("the turn is served"));
        let [(answer, state, output), (other_answer, other_state, other_output)] = turned;
        assert_eq!((answer, output), (other_answer, other_output));
        assert_eq!(state[1..], other_state[1..]);
        assert_eq!((kind(state[0]), count(other_state[0])), (SURVEY, number));
    });
    tally.came(&["done", "spent"], 100);
}

/// A turn of yesterday's query over today's tables: refused by 22 under their number, or by 9 where its year is not read of them any more; and
/// under yesterday's number it would often have gone on.
#[test]
fn a_query_of_yesterday_does_not_go_on_over_other_tables() {
    let tally = Tally::default();
    for_each_seed(4000, |random| {
        let yesterday = plans::short_query(random);
        let tables = crate::inputs::views::other_tables(random, &yesterday.tables);
        let Ok(Some(today)) = evaluation::query(&tables, &yesterday.words, 6_000) else {
            return;
        };
        let call = Turn {
            tables,
            ..calls::turn(random, &yesterday)
        };
        if check_turn(&tally, &today, &call).is_some() && today.tables != yesterday.tables {
            tally.note::<()>(&Ok(()), "would have mixed two surveys");
        }
        let another_year = crate::guarded::turn(&call).0 == Err(9);
        let number = numbered(random, yesterday.survey, Number::Other);
        let call = Turn { survey: number, ..call };
        assert_eq!(check_turn(&tally, &today, &call), None);
        assert_eq!(crate::guarded::turn(&call).0, Err(if another_year { 9 } else { 22 }));
    });
    tally.came(
        &[
            "refused by 22",
            "refused by 10",
            "refused by 9",
            "would have mixed two surveys",
        ],
        100,
    );
}
