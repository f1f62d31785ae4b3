//! What the crate adds to the calls: the builder writes the rules' words, the readers read them, and turns and kept lists add up.

use crate::checking::{for_each_seed, whole_list, Tally};
use crate::evaluation::calls::{accepted_plan, Query};
use crate::evaluation::plan::{self, Ending};
use crate::evaluation::words::*;
use crate::inputs::{calls, damage, plans};
use sotjarn::{
    least_output, Branch, Comparison, Condition, Kept, Key, List, Place, Plan, Refusal, State, Survey, Tables, Term, TurnEnding,
    Value, Variable,
};

const COMPARISONS: [Comparison; 6] = [
    Comparison::Equal,
    Comparison::Unequal,
    Comparison::Less,
    Comparison::AtMost,
    Comparison::More,
    Comparison::AtLeast,
];

fn built_term(word: u32) -> Term {
    let value = term_value(word);
    match term_kind(word) {
        NAME => Term::Name(value),
        NUMBER => Term::Number(number_value(word) as i32),
        TEXT => Term::Text(value),
        _ => Variable(value).into(),
    }
}

fn built_condition(condition: &plan::Condition) -> Condition {
    match condition {
        plan::Condition::True => Condition::always(),
        plan::Condition::Not(part) => Condition::not(built_condition(part)),
        plan::Condition::And(left, right) => Condition::and(built_condition(left), built_condition(right)),
        plan::Condition::Or(left, right) => Condition::or(built_condition(left), built_condition(right)),
        plan::Condition::Compare(number, left, right) => {
            Condition::compare(built_term(*left), COMPARISONS[*number as usize], built_term(*right))
        }
    }
}

/// The plan as the crate's builder makes it.
pub fn built(plan: &plan::Plan) -> Plan {
    let mut builder = match plan.year {
        Some(0) => Plan::builder().every_year(),
        Some(year) => Plan::builder().year(year),
        None => Plan::builder(),
    };
    for branch in &plan.branches {
        let [empty, conditioned] = [Branch::new(), Branch::new().condition(built_condition(&branch.condition))];
        let start = if branch.condition == plan::Condition::True {
            empty
        } else {
            conditioned
        };
        let add = |made: Branch, &[s, p, o]: &[u32; 3]| made.pattern(built_term(s), built_term(p), built_term(o));
        builder = builder.branch(branch.patterns.iter().fold(start, add));
    }
    let variables = |numbers: &[u32]| numbers.iter().map(|&number| Variable(number)).collect::<Vec<_>>();
    let key = |&(falls, number): &(bool, u32)| match falls {
        true => Key::Falling(Variable(number)),
        false => Key::Rising(Variable(number)),
    };
    match &plan.ending {
        Ending::Rows(rows) => builder.rows(variables(rows)),
        Ending::Top(k, rows, keys) => builder.top(*k, variables(rows), keys.iter().map(key).collect::<Vec<_>>()),
        Ending::Group(by, measured) => builder.group(variables(by), Variable(*measured)),
        Ending::Registers(counted) => builder.registers(Variable(*counted)),
    }
    .expect("every value fits")
}

/// A word as the turn printer shows it.
fn shown(word: u32) -> String {
    match (word, term_kind(word)) {
        (UNBOUND, _) => "-".to_string(),
        (_, kind) => format!("{}{}", ["n", "i", "t", "?"][kind as usize], value(word)),
    }
}

fn shown_values(values: &[Value]) -> Vec<String> {
    values.iter().map(Value::to_string).collect()
}

/// A list as the reader shows it, and as its words say.
fn compare_list(query: &Query, plan: &Plan, words: &[u32]) {
    let parts = words.chunks(query.plan.width());
    let many = parts.len();
    match plan.read(words).expect("a list of this plan") {
        List::Rows(rows) => {
            assert_eq!(rows.len(), many);
            for (row, part) in rows.iter().zip(parts) {
                assert_eq!(shown_values(row), part.iter().map(|&word| shown(word)).collect::<Vec<_>>());
            }
        }
        List::Groups(groups) => {
            assert_eq!(groups.len(), many);
            for (group, part) in groups.iter().zip(parts) {
                let (keys, totals) = part.split_at(part.len() - 8);
                let wide = |at: usize| u64::from(totals[at]) + (u64::from(totals[at + 1]) << 32);
                let bound = |word: u32| (word != UNBOUND).then(|| number_value(word) as i32);
                assert_eq!(
                    shown_values(&group.keys),
                    keys.iter().map(|&word| shown(word)).collect::<Vec<_>>()
                );
                assert_eq!((group.rows, group.numbers, group.sum), (wide(0), wide(2), wide(4) as i64));
                assert_eq!((group.least, group.greatest), (bound(totals[6]), bound(totals[7])));
            }
        }
        List::Registers(registers) => assert!(words.is_empty() && registers == [0; 16] || words == registers),
    }
}

pub fn survey(query: &Query) -> Survey<'_> {
    Tables {
        rows: &query.tables.rows,
        pos: &query.tables.pos,
        osp: &query.tables.osp,
    }
    .survey(query.survey)
}

#[test]
fn the_builder_writes_the_words_of_the_rules() {
    for_each_seed(3000, |random| {
        let query = plans::short_query(random);
        for plan in [query.plan.clone(), damage::grown(random, &query)] {
            let made = built(&plan);
            assert_eq!(made.words(), plan.words());
            assert_eq!((made.width(), made.least_output()), (plan.width(), plan.least_output()));
        }
    });
}

#[test]
fn plan_words_are_read_back_or_refused_as_the_rules_say() {
    let tally = Tally::default();
    for_each_seed(6000, |random| {
        let query = plans::short_query(random);
        let mut call = calls::open(random, &query);
        if random.chance(70) {
            damage::open(random, &query, &mut call);
        }
        let right = accepted_plan(&call.plan);
        tally.note(&right, "read");
        let read = Plan::from_words(&call.plan).map_err(Refusal::code);
        assert_eq!(read, right.as_ref().map(built).map_err(|&number| number));
        let least = least_output(&call.plan).map_err(Refusal::code);
        assert_eq!(least, right.map(|plan| plan.least_output()));
    });
    tally.came(&["read", "refused by 5", "refused by 6"], 200);
}

#[test]
fn stored_lists_are_taken_up_again_or_refused() {
    for_each_seed(3000, |random| {
        let query = plans::short_query(random);
        let plan = built(&query.plan);
        let merge = calls::merge(random, &query);
        let stored = merge.kept[..merge.given].to_vec();
        let taken = Kept::from_words(&plan, stored.clone()).expect("a list of this plan");
        assert_eq!(taken.words(), stored);

        let mut cut = stored.clone();
        cut.push(0);
        assert!(plan.width() == 1 || Kept::from_words(&plan, cut) == Err(Refusal::MergedLists));
        let mut wrong = stored;
        wrong.splice(..0, vec![UNBOUND + 1; plan.width()]);
        assert_eq!(Kept::from_words(&plan, wrong), Err(Refusal::MergedLists));
    });
}

#[test]
fn the_readers_read_states_and_lists() {
    for_each_seed(3000, |random| {
        let query = plans::short_query(random);
        let number = random.below(query.run.steps());
        let state = State::read(&query.saved(number)).expect("a state of the run");
        let [year, branch, places @ ..] = &query.run.states[number][..] else {
            panic!("a state has its year and its branch")
        };
        assert_eq!(
            (state.survey, state.year, state.branch, state.depth()),
            (query.survey, *year, *branch, places.len())
        );
        assert_eq!(state.places, places.iter().map(|&place| Place(place)).collect::<Vec<_>>());

        let plan = built(&query.plan);
        compare_list(&query, &plan, &whole_list(&query));
        let merge = calls::merge(random, &query);
        compare_list(&query, &plan, &merge.list);

        // Words of any kind are read or not, but never more than there are.
        let (many, width) = (random.below(12), random.below(4));
        let words = random.words(many);
        let (_, _, _, _) = (
            State::read(&words),
            sotjarn::read_rows(&words, width),
            sotjarn::read_groups(&words, width),
            sotjarn::read_registers(&words),
        );
    });
}

#[test]
fn turns_and_kept_lists_add_up_to_the_uncut_run() {
    for_each_seed(3000, |random| {
        let query = plans::short_query(random);
        let plan = built(&query.plan);
        let most = query.run.steps().div_ceil(3);
        let mut made = sotjarn::Query::open(survey(&query), plan.words()).expect("the opening is accepted");
        let (mut kept, mut steps, mut sent) = (Kept::new(&plan), 0, false);
        while !made.is_done() {
            // A phone saves the state, and comes in again with it.
            made = sotjarn::Query::load(survey(&query), plan.words(), made.state());
            let mut turns = made.turns(random.between(1, most) as u32, plan.least_output() + random.below(9));
            if random.chance(50) {
                sent |= !kept.threshold().is_empty();
                turns.set_threshold(kept.threshold());
            }
            for turn in turns.by_ref().take(random.between(1, 3)) {
                let turn = turn.expect("the turn is served");
                steps += turn.steps as usize;
                kept.take(&turn.list).expect("the list is taken");
                assert!(turn.ending != TurnEnding::Done || turn.steps > 0);
            }
        }
        assert!(if sent {
            steps <= query.run.steps()
        } else {
            steps == query.run.steps()
        });
        assert_eq!(kept.words(), whole_list(&query));
        assert!(made.state().is_empty());
        assert!(made.turns(5, plan.least_output()).next().is_none());
        assert_eq!(made.turn(5, &[], &mut vec![0; plan.least_output()]), Err(Refusal::StateForm));
    });
}

#[test]
fn turns_end_after_a_refusal() {
    for_each_seed(300, |random| {
        let query = plans::short_query(random);
        let mut made = sotjarn::Query::open(survey(&query), &query.words).expect("the opening is accepted");
        let state = made.state().to_vec();
        let refused: Vec<_> = made.turns(0, query.plan.least_output()).collect();
        assert_eq!(refused, [Err(Refusal::Quantum)]);
        assert_eq!(made.state(), state);
        let long = random.words(12);
        let mut loaded = sotjarn::Query::load(survey(&query), &query.words, &long);
        let refused: Vec<_> = loaded.turns(1, query.plan.least_output()).collect();
        assert_eq!(refused, [Err(Refusal::StateForm)]);
        assert_eq!(loaded.state(), long);
    });
}
