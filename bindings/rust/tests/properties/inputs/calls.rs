//! Random calls of a query: from any of its states, and merges of lists that no run need have made.

use super::plans::some_constant;
use super::random::Random;
use super::woods::some_number;
use crate::evaluation::calls::{Merge, Open, Query, Turn};
use crate::evaluation::lists;
use crate::evaluation::plan::Ending;
use crate::evaluation::registers::{Report, MOST_RANK, REGISTERS};
use crate::evaluation::words::*;

pub fn open(random: &mut Random, query: &Query) -> Open {
    let spare = random.pick(&[0, 0, 1, 7]);
    Open {
        tables: query.tables.clone(),
        survey: query.survey,
        plan: query.words.clone(),
        state: random.words(11 + spare),
    }
}

/// An output for a part of the rows or groups, and at least for what test 7 asks.
pub fn output(random: &mut Random, query: &Query) -> Vec<u32> {
    let parts = match query.plan.ending {
        Ending::Top(..) => query.plan.k(),
        _ => random.pick(&[1, 1, 2, 3, 5, 1000]),
    };
    let spare = random.pick(&[0, 0, 0, 1, 2, 5]);
    random.words(parts * query.plan.width() + spare)
}

fn value(random: &mut Random, query: &Query) -> u32 {
    match random.small(5) {
        0 => UNBOUND,
        1 => term(random.small(3), random.small(3)),
        field => some_constant(random, &query.tables, field as usize - 2),
    }
}

pub fn row(random: &mut Random, query: &Query, columns: usize) -> Vec<u32> {
    (0..columns).map(|_| value(random, query)).collect()
}

fn threshold(random: &mut Random, query: &Query) -> Vec<u32> {
    let rows: Vec<_> = query.run.delivered.iter().flatten().take(50).collect();
    match query.plan.ending {
        Ending::Top(..) if rows.is_empty() || random.chance(30) => row(random, query, query.plan.width()),
        Ending::Top(..) if random.chance(60) => random.pick(&rows).clone(),
        _ => Vec::new(),
    }
}

/// A turn from a state that the run passes through.
pub fn turn(random: &mut Random, query: &Query) -> Turn {
    let steps = query.run.steps();
    let mut state = query.saved(random.below(steps));
    let given = state.len();
    let spare = random.pick(&[0, 0, 1, 4]);
    state.extend(random.words(11 + spare - given));
    let some = random.between(1, steps) as u32;
    let quantum = random.pick(&[1, 2, some, steps as u32, 1_000_000]);
    Turn {
        tables: query.tables.clone(),
        survey: query.survey,
        plan: query.words.clone(),
        state,
        given,
        quantum,
        threshold: threshold(random, query),
        output: output(random, query),
    }
}

/// Totals of one row or many, and where there are no keys often of none.
fn totals(random: &mut Random, keys: &[u32]) -> Vec<u32> {
    let halves = |wide: u64| [wide as u32, (wide >> 32) as u32];
    if keys.is_empty() && random.chance(35) {
        return lists::NOTHING.to_vec();
    }
    let rows = random.pick(&[1, 1, 2, 3, u32::MAX.into(), 1 << 32, 1 << 62, 1 << 63, u64::MAX - 1, u64::MAX]);
    let numbers = random.pick(&[0, 1, rows, rows, rows / 2]);
    let sum = random.pick(&[
        0,
        1,
        45,
        u32::MAX.into(),
        1 << 32,
        (1 << 63) - 1,
        (1 << 63) - 45,
        1 << 63,
        (1 << 63) + 45,
        u64::MAX - 45,
        u64::MAX,
    ]);
    if numbers == 0 {
        return [&halves(rows)[..], &[0; 4], &[UNBOUND; 2]].concat();
    }
    let (one, other) = (some_number(random), some_number(random));
    let (least, greatest) = if rank(one) <= rank(other) {
        (one, other)
    } else {
        (other, one)
    };
    [halves(rows), halves(numbers), halves(sum), [least, greatest]].concat()
}

/// Registers of any values that they may have.
fn registers(random: &mut Random) -> Vec<u32> {
    let most = random.pick(&[1, 4, MOST_RANK]);
    (0..REGISTERS).map(|_| random.small(most + 1)).collect()
}

/// A report on registers, or on a list before anything is merged.
pub fn report(random: &mut Random) -> Report {
    let mut kept = if random.chance(20) { Vec::new() } else { registers(random) };
    let given = kept.len();
    let (behind, spare) = (random.pick(&[0, 0, 1, 16]), random.pick(&[0, 0, 1, 9]));
    kept.extend(random.words(behind));
    Report {
        kept,
        given,
        report: random.words(62 + spare),
    }
}

/// A list in order, of rows or records from a few that no run need have made.
fn list(random: &mut Random, query: &Query, pool: &[Vec<u32>]) -> Vec<u32> {
    match &query.plan.ending {
        Ending::Group(..) => {
            let mut keys = random.some(pool, 0, pool.len());
            keys.sort_by_key(|keys| keys.iter().map(|&word| rank(word)).collect::<Vec<_>>());
            keys.dedup();
            let record = |keys: Vec<u32>| [&keys[..], &totals(random, &keys)].concat();
            keys.into_iter().flat_map(record).collect()
        }
        Ending::Registers(_) if random.chance(30) => registers(random),
        _ => {
            let many = random.below(2 * pool.len() + 1);
            let rows: Vec<_> = (0..many).map(|_| random.pick(pool)).collect();
            let lent: Vec<&[u32]> = rows.iter().map(|row| &row[..]).collect();
            lists::list(&query.plan, &lent, &[])
        }
    }
}

/// So many such lists.
pub fn lists(random: &mut Random, query: &Query, many: usize) -> Vec<Vec<u32>> {
    let columns = match &query.plan.ending {
        Ending::Group(by, _) => by.len(),
        Ending::Registers(_) => 1,
        _ => query.plan.width(),
    };
    let pool: Vec<_> = (0..random.pick(&[1, 3, 3, 6, 40]))
        .map(|_| row(random, query, columns))
        .collect();
    (0..many).map(|_| list(random, query, &pool)).collect()
}

/// A merge of two such lists.
pub fn merge(random: &mut Random, query: &Query) -> Merge {
    let mut two = lists(random, query, 2).into_iter();
    let (mut kept, list) = (two.next().unwrap_or_default(), two.next().unwrap_or_default());
    if matches!(query.plan.ending, Ending::Registers(_)) && random.chance(25) {
        kept.clear(); // nothing is merged yet
    }
    let given = kept.len();
    let spare = random.pick(&[0, 1, list.len(), list.len(), list.len() + 3]);
    kept.extend(random.words(spare));
    Merge {
        plan: query.words.clone(),
        kept,
        given,
        list,
    }
}
