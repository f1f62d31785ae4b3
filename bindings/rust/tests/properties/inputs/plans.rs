//! Random plans over tables.

use super::random::Random;
use super::woods::{some_number, survey, wood};
use crate::evaluation::calls::{self, Query};
use crate::evaluation::plan::{Branch, Condition, Ending, Plan};
use crate::evaluation::tables::Tables;
use crate::evaluation::words::*;

/// A term of any kind but a variable, often one of the tables' that a pattern's field is matched with: its column is behind the year.
pub fn some_constant(random: &mut Random, tables: &Tables, field: usize) -> u32 {
    let rows = tables.rows.len() / 4;
    match random.small(12) {
        0..=8 if rows > 0 => tables.rows[4 * random.below(rows) + 1 + field],
        9 => some_number(random),
        10 => term(TEXT, random.small(4)),
        _ => name(random.small(12)),
    }
}

fn pattern(random: &mut Random, tables: &Tables, variables: &[u32]) -> [u32; 3] {
    [(0, 80), (1, 30), (2, 65)].map(|(field, percent)| match random.chance(percent) {
        true => variable(random.pick(variables)),
        false => some_constant(random, tables, field),
    })
}

fn leaf(random: &mut Random, tables: &Tables, variables: &[u32]) -> Condition {
    if random.chance(8) {
        return Condition::True;
    }
    let mut side = |percent| match !variables.is_empty() && random.chance(percent) {
        true => variable(random.pick(variables)),
        false => some_constant(random, tables, 2),
    };
    let (left, right) = (side(85), side(25));
    Condition::Compare(random.small(6), left, right)
}

/// A tree of at most so many nodes and so deep.
pub fn tree(random: &mut Random, tables: &Tables, variables: &[u32], nodes: usize, deep: usize) -> Condition {
    if nodes == 1 || deep == 1 {
        return leaf(random, tables, variables);
    }
    if nodes == 2 || random.chance(20) {
        return Condition::Not(Box::new(tree(random, tables, variables, nodes - 1, deep - 1)));
    }
    let half = (nodes - 1) / 2;
    let on_left = if random.chance(50) {
        half
    } else {
        random.between(1, nodes - 2)
    };
    let left = Box::new(tree(random, tables, variables, on_left, deep - 1));
    let right = Box::new(tree(random, tables, variables, nodes - 1 - on_left, deep - 1));
    match random.chance(50) {
        true => Condition::And(left, right),
        false => Condition::Or(left, right),
    }
}

fn branch(random: &mut Random, tables: &Tables, variables: &[u32]) -> Branch {
    let many = random.pick(&[1, 1, 2, 2, 2, 2, 3, 3, 4, 5, 8]);
    let patterns: Vec<_> = (0..many).map(|_| pattern(random, tables, variables)).collect();
    let made = Branch {
        patterns,
        condition: Condition::True,
    };
    let bound: Vec<u32> = made.binds().into_iter().collect();
    let nodes = random.pick(&[1, 1, 1, 1, 2, 3, 3, 5, 8, 31]);
    match random.chance(35) {
        true => made,
        false => Branch {
            condition: tree(random, tables, &bound, nodes, 8),
            ..made
        },
    }
}

/// An ending of one of the four kinds; the variables are those that some branch binds.
pub fn ending(random: &mut Random, variables: &[u32]) -> Ending {
    let most = random.pick(&[1, 2, 2, 3, 16]);
    let columns = random.some(variables, 1, most);
    match random.small(4) {
        0 => Ending::Rows(columns),
        1 => {
            let k = random.pick(&[0, 1, 1, 2, 2, 3, 5, 10, 64]);
            let keys = (0..random.pick(&[1, 1, 2, 3, 4]))
                .map(|_| (random.chance(50), random.pick(&columns)))
                .collect();
            Ending::Top(k, columns, keys)
        }
        2 => Ending::Registers(random.pick(variables)),
        _ => {
            let most = random.pick(&[0, 1, 1, 2, 4]);
            Ending::Group(random.some(variables, 0, most), random.pick(variables))
        }
    }
}

/// The years that are read: the latest, every one, one that rows have, or one that they may not have.
fn year(random: &mut Random, tables: &Tables) -> Option<u32> {
    let there = match tables.rows.len() / 4 {
        0 => 2026,
        many => term_value(tables.rows[4 * random.below(many)]),
    };
    let beside = random_year(there);
    random.pick(&[
        None,
        None,
        None,
        None,
        Some(0),
        Some(0),
        Some(0),
        Some(0),
        Some(there),
        Some(there),
        Some(beside),
    ])
}

/// A year beside another.
fn random_year(year: u32) -> u32 {
    (year % MOST_YEAR) + 1
}

/// A plan that tests 5, 6 and 23 pass, unless it is too long.
pub fn plan(random: &mut Random, tables: &Tables) -> Plan {
    let first = random.pick(&[0, 0, 0, 10]);
    let variables: Vec<u32> = (first..first + random.pick(&[1, 2, 3, 3, 4, 5, 6])).collect();
    loop {
        let many = random.pick(&[1, 1, 1, 1, 2, 2, 3, 4]);
        let branches: Vec<Branch> = (0..many).map(|_| branch(random, tables, &variables)).collect();
        let mut bound: Vec<u32> = branches.iter().flat_map(Branch::binds).collect();
        bound.sort();
        bound.dedup();
        if !bound.is_empty() {
            return Plan {
                year: year(random, tables),
                ending: ending(random, &bound),
                branches,
            };
        }
    }
}

/// A wood and a plan of fewer steps than `most`, mostly with about so many deliveries.
pub fn query(random: &mut Random, rows: &[usize], most: usize, deliveries: usize) -> Query {
    loop {
        let most_rows = random.pick(rows);
        let tables = wood(random, most_rows);
        let words = plan(random, &tables).words();
        if let Ok(Some(mut query)) = calls::query(&tables, &words, most) {
            query.survey = survey(random);
            if query.run.delivered.iter().flatten().count() >= deliveries || random.chance(5) {
                return query;
            }
        }
    }
}

/// A wood and a plan of fewer steps than `most` whose conditions keep no row, as a stand has that was clear-felled: mostly a total.
pub fn felled_query(random: &mut Random, rows: &[usize], most: usize) -> Query {
    loop {
        let most_rows = random.pick(rows);
        let tables = wood(random, most_rows);
        let mut plan = plan(random, &tables);
        for branch in &mut plan.branches {
            branch.condition = Condition::Compare(1, number(0), number(0));
        }
        if random.chance(60) {
            plan.ending = Ending::Group(Vec::new(), plan.columns()[0]);
        }
        if let Ok(Some(mut query)) = calls::query(&tables, &plan.words(), most) {
            query.survey = survey(random);
            return query;
        }
    }
}

pub fn short_query(random: &mut Random) -> Query {
    let (few, deliveries) = (random.below(13), random.pick(&[0, 1, 4, 20]));
    let rows = [0, few, few, 25, 60, 150];
    match random.chance(10) {
        true => felled_query(random, &rows, 3_000),
        false => query(random, &rows, 3_000, deliveries),
    }
}
