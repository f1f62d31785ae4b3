//! Random views: grants that let an adviser in to some of a wood, buffers of all lengths, damage, and woods that differ in some rows.

use super::random::Random;
use super::{damage, woods};
use crate::evaluation::tables::{Row, Tables};
use crate::evaluation::views::{visible, View};
use crate::evaluation::words::*;

/// A name that a grant may have: a subject of the wood, something that a row says, or another.
fn some_name(random: &mut Random, rows: &[Row]) -> u32 {
    let named = |word: u32| Some(word).filter(|&word| term_kind(word) == NAME);
    let said = match rows.is_empty() {
        true => None,
        false => named(random.pick(rows)[random.pick(&[1, 1, 2, 3, 3, 3])]),
    };
    said.unwrap_or_else(|| name(random.pick(&[0, 1, 5, 10, 100, MOST_VALUE])))
}

/// Names in strictly ascending order, often few and sometimes none.
pub fn grant(random: &mut Random, tables: &Tables) -> Vec<u32> {
    let rows = tables.quads();
    let mut names: Vec<u32> = (0..random.pick(&[0, 1, 1, 1, 2, 2, 3, 8]))
        .map(|_| some_name(random, &rows))
        .collect();
    names.sort();
    names.dedup();
    names
}

/// A predicate, mostly one that rows have; no name now and then.
pub fn membership(random: &mut Random, tables: &Tables) -> u32 {
    let rows = tables.quads();
    match random.small(12) {
        0..=9 if !rows.is_empty() => random.pick(&rows)[2],
        10 => random.word(),
        _ => name(random.pick(&[0, 10, MOST_VALUE])),
    }
}

/// Buffers that are just long enough for the visible rows, or somewhat longer.
pub fn lend(random: &mut Random, tables: Tables, grant: Vec<u32>, membership: u32) -> View {
    let many = visible(&tables, &grant, membership).len();
    let mut buffer = |words: usize| {
        let spare = random.pick(&[0, 0, 0, 1, 2, 9]);
        random.words(words + spare)
    };
    let (rows, pos, osp) = (buffer(4 * many), buffer(many), buffer(many));
    View {
        tables,
        grant,
        membership,
        rows,
        pos,
        osp,
    }
}

/// A call that is served, over a wood of at most so many rows.
pub fn view(random: &mut Random, most: usize) -> View {
    let rows = random.pick(&[0, 3, most / 2, most, most]);
    let tables = woods::wood(random, rows);
    let (grant, membership) = (grant(random, &tables), membership(random, &tables));
    lend(random, tables, grant, membership)
}

/// A grant out of order, with a name twice, or with a word that is no name.
fn grant_damage(random: &mut Random, grant: &mut Vec<u32>) {
    let more = random.pick(&[name(0), name(10), number(0), number(10), term(TEXT, 3), UNBOUND, u32::MAX]);
    match random.small(5) {
        0 if grant.len() > 1 => {
            let at = random.below(grant.len() - 1);
            grant.swap(at, at + 1);
        }
        1 if !grant.is_empty() => {
            let at = random.below(grant.len());
            grant.insert(at, grant[at]);
        }
        2 if !grant.is_empty() => {
            let at = random.below(grant.len());
            grant[at] |= random.pick(&[1 << 30, 1 << 31]);
        }
        3 => grant.insert(0, more),
        _ => grant.push(more),
    }
}

/// One thing changed: the tables, the grant, or a buffer that is one word too short or has none at all.
pub fn damage(random: &mut Random, call: &mut View) {
    match random.small(8) {
        0 if !call.tables.rows.is_empty() => {
            let at = random.below(call.tables.rows.len());
            call.tables.rows[at] |= random.pick(&[1, 2, 3]) << 30;
        }
        0..=2 => damage::tables(random, &mut call.tables),
        3 | 4 => grant_damage(random, &mut call.grant),
        5 => call.membership = membership(random, &call.tables),
        _ => {
            let many = visible(&call.tables, &call.grant, call.membership).len();
            let (at, short) = (random.below(3), random.chance(80));
            let words = if at == 0 { 4 * many } else { many };
            let short = if short { words.saturating_sub(1) } else { 0 };
            [&mut call.rows, &mut call.pos, &mut call.osp][at].truncate(short);
        }
    }
}

/// Words of any kind in all buffers.
pub fn made_up(random: &mut Random) -> View {
    let mut any = |most: usize| {
        let many = random.below(most + 1);
        random.words(many)
    };
    let (grant, rows, pos, osp) = (any(3), any(12), any(3), any(3));
    let tables = Tables {
        rows: any(12),
        pos: any(3),
        osp: any(3),
    };
    View {
        tables,
        grant,
        membership: random.word(),
        rows,
        pos,
        osp,
    }
}

/// Tables that differ from others in a few rows: some left out, changed or new. Whether an adviser sees a difference is left to chance.
pub fn other_tables(random: &mut Random, tables: &Tables) -> Tables {
    let mut rows = tables.quads();
    let more = woods::wood(random, 6).quads();
    for _ in 0..random.pick(&[1, 1, 2, 3]) {
        match random.small(4) {
            0 if !rows.is_empty() => drop(rows.swap_remove(random.below(rows.len()))),
            1 if !rows.is_empty() => {
                let at = random.below(rows.len());
                rows[at][3] = woods::some_number(random);
            }
            2 if !rows.is_empty() && !more.is_empty() => {
                let (row, other) = (random.pick(&rows), random.pick(&more));
                rows.push([row[0], row[1], other[2], other[3]])
            }
            _ if more.is_empty() => {}
            _ => rows.push(random.pick(&more)),
        }
    }
    Tables::of(rows)
}
