//! Damage: calls with something changed, mostly beside a limit. Not all of them are wrong after it.

use super::plans::{some_constant, tree};
use super::random::Random;
use super::woods::{no_survey, survey};
use crate::evaluation::calls::{Merge, Open, Query, Turn};
use crate::evaluation::lists;
use crate::evaluation::plan::{Branch, Condition, Ending, Plan};
use crate::evaluation::registers::{Report, MOST_RANK};
use crate::evaluation::tables::Tables;
use crate::evaluation::words::*;

/// One word changed, left out or doubled, two exchanged, or one more.
fn nudge(random: &mut Random, words: &mut Vec<u32>, word: u32) {
    if words.is_empty() {
        return words.push(word);
    }
    let (at, other) = (random.below(words.len()), random.below(words.len()));
    match random.small(7) {
        0 => words.insert(at, word),
        1 => drop(words.remove(at)),
        2 => words.push(words[at]),
        3 => words.swap(at, other),
        4 => words[at] ^= 1 << random.small(32),
        5 => words[at] = words[at].wrapping_add(random.pick(&[1, u32::MAX])),
        _ => words[at] = word,
    }
}

fn some_variable(random: &mut Random) -> u32 {
    let near = random.small(18);
    variable(random.pick(&[near, near, 15, 16, MOST_VALUE]))
}

/// A word that may stand in a plan, though perhaps nowhere.
fn some_word(random: &mut Random, tables: &Tables) -> u32 {
    let low = random.pick(&[0, 0, 1, 2, 4, 5, 6, 8, 9, 16, 17, 64, 65, MOST_COUNT]);
    match random.small(3) {
        0 => some_variable(random),
        1 => marked(random.small(16), low),
        _ => some_constant(random, tables, 2),
    }
}

/// A pattern that matches nothing: a branch that starts with it has a short run.
const NOTHING: [u32; 3] = [MOST_VALUE - 9; 3];

/// A branch that binds many variables, and an ending that names them.
fn many_variables(random: &mut Random, plan: &mut Plan, at: usize) {
    let many: usize = random.pick(&[4, 5, 16, 17]);
    let at_most = |number: usize| variable(number.min(many - 1) as u32);
    let pattern = |first| [at_most(first), at_most(first + 1), at_most(first + 2)];
    let patterns = [NOTHING].into_iter().chain((0..many).step_by(3).map(pattern));
    plan.branches[at] = Branch {
        patterns: patterns.collect(),
        condition: Condition::True,
    };
    let columns = (0..many as u32).collect();
    plan.ending = match random.chance(50) {
        true => Ending::Rows(columns),
        false => Ending::Group(columns, 0),
    };
}

/// So many comparisons joined by "and", about as deep on each side.
fn joined(many: usize) -> Condition {
    match many {
        1 => Condition::Compare(0, number(1), number(1)),
        _ => Condition::And(Box::new(joined(many / 2)), Box::new(joined(many - many / 2))),
    }
}

/// A condition of so many words, at least 3: joined comparisons below a few "not".
fn condition_of(words: usize) -> Condition {
    let comparisons = (words + 1) / 4;
    (4 * comparisons - 1..words).fold(joined(comparisons), |condition, _| Condition::Not(Box::new(condition)))
}

/// A plan of about as many words as there may be.
fn many_words(random: &mut Random, plan: &mut Plan) {
    plan.branches = plan.branches.iter().cycle().take(4).cloned().collect();
    for branch in &mut plan.branches {
        branch.patterns = [NOTHING]
            .iter()
            .chain(branch.patterns.iter().cycle())
            .take(8)
            .copied()
            .collect();
        branch.condition = Condition::True;
    }
    let mut left = random.pick(&[255, 256, 256, 257]) - (plan.words().len() - 4);
    for (number, branch) in plan.branches.iter_mut().enumerate() {
        let part = left / (4 - number);
        branch.condition = condition_of(part);
        left -= part;
    }
}

/// The plan's parts grown to about their limits.
pub fn grown(random: &mut Random, query: &Query) -> Plan {
    let mut plan = query.plan.clone();
    let at = random.below(plan.branches.len());
    let branch = &mut plan.branches[at];
    let bound: Vec<u32> = branch.binds().into_iter().collect();
    match random.small(10) {
        9 => plan.year = random.pick(&[None, Some(0), Some(1), Some(MOST_YEAR), Some(MOST_YEAR + 1), Some(MOST_COUNT)]),
        0 => {
            let not = |condition, _| Condition::Not(Box::new(condition));
            branch.condition = (0..random.between(5, 8)).fold(branch.condition.clone(), not);
        }
        1 => {
            let nodes = random.between(28, 33);
            branch.condition = tree(random, &query.tables, &bound, nodes, 9);
        }
        2 => {
            let many = random.pick(&[7, 8, 8, 9]);
            branch.patterns = branch.patterns.iter().cycle().take(many).copied().collect();
        }
        3 => {
            let many = random.pick(&[3, 4, 4, 5]);
            plan.branches = plan.branches.iter().cycle().take(many).cloned().collect();
        }
        4 => many_variables(random, &mut plan, at),
        5 => many_words(random, &mut plan),
        6 => {
            *branch = Branch {
                patterns: Vec::new(),
                condition: Condition::True,
            }
        }
        7 => match &mut plan.ending {
            Ending::Rows(columns) | Ending::Top(_, columns, _) | Ending::Group(columns, _) => columns.clear(),
            Ending::Registers(counted) => *counted = random.pick(&[*counted, 15, 16]),
        },
        _ => {
            if let Ending::Top(k, rows, keys) = &mut plan.ending {
                *k = random.pick(&[0, 63, 64, 65]);
                *keys = (0..random.pick(&[0, 4, 4, 5]))
                    .map(|_| (random.chance(50), random.pick(rows)))
                    .collect();
            }
        }
    }
    plan
}

fn plan_damage(random: &mut Random, query: &Query, words: &mut Vec<u32>) {
    match random.small(6) {
        0 => *words = grown(random, query).words(),
        1 => words.truncate(random.below(words.len() + 1)),
        2 => {
            let (word, many) = (some_word(random, &query.tables), random.pick(&[1, 1, 250]));
            words.extend(vec![word; many]);
        }
        3 if words.iter().any(|&word| term_kind(word) == VARIABLE) => {
            let variables: Vec<usize> = (0..words.len()).filter(|&at| term_kind(words[at]) == VARIABLE).collect();
            words[random.pick(&variables)] = some_variable(random);
        }
        4 if !words.is_empty() => {
            let at = random.below(words.len());
            words[at] = marked(
                kind(words[at]),
                random.pick(&[0, 1, count(words[at]) + 1, 5, 9, 17, 65]) & MOST_COUNT,
            );
        }
        _ => {
            let word = some_word(random, &query.tables);
            nudge(random, words, word);
        }
    }
}

pub fn tables(random: &mut Random, tables: &mut Tables) {
    let many = tables.rows.len() / 4;
    match random.small(7) {
        0 if many > 1 => {
            let at = 4 * random.below(many - 1);
            tables.rows.copy_within(at + 4..at + 8, at);
        }
        1 if many > 1 => {
            let at = 4 * random.below(many - 1);
            tables.rows[at..at + 8].rotate_left(4);
        }
        2 => {
            let word = random.pick(&[UNBOUND, number(3), variable(2), name(5)]);
            nudge(random, &mut tables.rows, word);
        }
        3 => {
            tables
                .rows
                .extend([number(9_999), name(MOST_VALUE), name(MOST_VALUE), UNBOUND - 1]);
            if random.chance(50) {
                tables.pos.push(many as u32);
                tables.osp.push(many as u32);
            }
        }
        4 if many > 0 => {
            let at = 4 * random.below(many);
            tables.rows[at] = random.pick(&[number(0), number(10_000), number(-1), name(2026), number(1)]);
        }
        _ => {
            let row = random.pick(&[0, many as u32, many as u32 + 1, u32::MAX]);
            let list = if random.chance(50) { &mut tables.pos } else { &mut tables.osp };
            nudge(random, list, row);
        }
    }
}

fn state_damage(random: &mut Random, query: &Query, call: &mut Turn) {
    let given = call.given.min(call.state.len());
    if given == 0 || random.chance(25) {
        call.given = random.pick(&[
            0,
            1,
            given.saturating_sub(1),
            given + 1,
            call.state.len(),
            call.state.len() + 1,
            usize::MAX,
        ]);
        return;
    }
    let at = random.below(given);
    match random.small(6) {
        0 => {
            call.state[at] = marked(
                random.pick(&[SURVEY, YEAR, STATE, PLACE, PLACE, 1]),
                random.pick(&[0, 1, 2, 3, 16, 17, 33, 65, 2025, 2026, MOST_COUNT]),
            )
        }
        1 | 2 => call.state[at] = call.state[at].wrapping_add(random.pick(&[1, 1, 2, u32::MAX, u32::MAX - 1])),
        3 if given > 2 => call.state[2] = call.state[2].wrapping_add(16 * random.pick(&[1, 1, 2, 3, 4])),
        4 if (3..call.state.len()).contains(&given) => {
            call.state[2] = call.state[2].wrapping_add(1);
            call.state[given] = marked(PLACE, random.small(query.tables.pos.len() as u32 + 2));
            call.given = given + 1;
        }
        _ => {
            let other = query.saved(random.below(query.run.steps()));
            call.state[at] = other[at.min(other.len() - 1)];
        }
    }
}

/// Another number for a call, of 28 bits or more, or for its state.
fn survey_damage(random: &mut Random, call: &mut Turn) {
    let other = survey(random);
    match random.small(4) {
        0 => call.survey = no_survey(random, call.survey),
        1 => call.survey = random.pick(&[call.survey ^ 1, other]),
        _ if call.state.is_empty() => {}
        2 => call.state[0] = marked(SURVEY, other),
        _ => call.state[0] ^= 1 << random.small(28),
    }
}

pub fn open(random: &mut Random, query: &Query, call: &mut Open) {
    match random.small(6) {
        0 | 1 => tables(random, &mut call.tables),
        2 | 3 => plan_damage(random, query, &mut call.plan),
        4 => call.survey = no_survey(random, call.survey),
        _ => call.state.truncate(random.pick(&[0, 1, 10, 10])),
    }
}

pub fn turn(random: &mut Random, query: &Query, call: &mut Turn) {
    match random.small(14) {
        0 => tables(random, &mut call.tables),
        1 | 2 => plan_damage(random, query, &mut call.plan),
        3 => call.state.truncate(random.pick(&[0, 1, 10, 10])),
        12 | 13 => survey_damage(random, call),
        4 => call.quantum = random.pick(&[0, 1_000_001, u32::MAX]),
        5 => call.output.truncate(random.pick(&[0, query.plan.least_output() - 1])),
        6 | 7 => {
            let word = random.pick(&[variable(1), u32::MAX, UNBOUND, number(1)]);
            nudge(random, &mut call.threshold, word);
        }
        _ => state_damage(random, query, call),
    }
}

/// A record of a list with the totals of nothing for its own, which is right only where it has no keys.
fn empty_record(random: &mut Random, width: usize, list: &mut [u32]) {
    let records = list.len() / width;
    if records > 0 {
        let end = width * (1 + random.below(records));
        list[end - lists::NOTHING.len()..end].copy_from_slice(&lists::NOTHING);
    }
}

pub fn merge(random: &mut Random, query: &Query, call: &mut Merge) {
    let word = random.pick(&[
        0,
        1,
        2,
        UNBOUND,
        UNBOUND + 1,
        u32::MAX,
        number(5),
        number(-1),
        number(-MOST_NUMBER - 1),
        name(3),
        MOST_RANK,
        MOST_RANK + 1,
    ]);
    let given = call.given.min(call.kept.len());
    let (groups, width) = (matches!(query.plan.ending, Ending::Group(..)), query.plan.width());
    match random.small(9) {
        0 => plan_damage(random, query, &mut call.plan),
        8 if groups && random.chance(50) => empty_record(random, width, &mut call.list),
        8 if groups => empty_record(random, width, &mut call.kept[..given]),
        1 => call.given = random.pick(&[0, 1, given.saturating_sub(1), given + 1, call.kept.len() + 1, usize::MAX]),
        2 => call.list = call.list.repeat(random.pick(&[2, 2, 12])),
        3 => call.kept.truncate(given),
        4 | 5 if !call.list.is_empty() => {
            let at = random.below(call.list.len());
            call.list[at] = word;
        }
        6 if given > 0 => {
            let at = random.below(given);
            call.kept[at] = word;
        }
        _ => nudge(random, &mut call.list, word),
    }
}

pub fn report(random: &mut Random, call: &mut Report) {
    match random.small(5) {
        0 => call.report.truncate(random.pick(&[0, 1, 61, 61])),
        1 => call.given = random.pick(&[0, 1, 15, 16, 17, call.kept.len() + 1, usize::MAX]),
        2 if !call.kept.is_empty() => {
            let at = random.below(call.kept.len());
            call.kept[at] = random.pick(&[MOST_RANK, MOST_RANK + 1, u32::MAX]);
        }
        _ => {
            let word = random.pick(&[0, MOST_RANK, MOST_RANK + 1]);
            nudge(random, &mut call.kept, word);
        }
    }
}
