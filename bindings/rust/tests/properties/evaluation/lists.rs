//! Best-of lists, groups and registers: of delivered rows, and merged.

use std::collections::BTreeMap;

use super::plan::{Branch, Ending, Plan};
use super::registers;
use super::run::Bound;
use super::words::*;

/// A word's rank by a key, turned round where it falls.
fn rank_by(falls: bool, word: u32) -> (i64, i64) {
    let (kind, value) = rank(word);
    let sign = if falls { -1 } else { 1 };
    (sign * i64::from(kind), sign * value)
}

/// The word that a row has for a key.
fn key_word(rows: &[u32], key: u32, row: &[u32]) -> u32 {
    row[rows.iter().position(|&v| v == key).expect("a key is a column")]
}

/// What a key list compares: each key's rank.
fn sort_key(rows: &[u32], keys: &[(bool, u32)], row: &[u32]) -> Vec<(i64, i64)> {
    keys.iter()
        .map(|&(falls, key)| rank_by(falls, key_word(rows, key, row)))
        .collect()
}

/// Whether a threshold leaves out whatever a match of some patterns of a branch may become: its known keys, from the first on, put it after the
/// threshold, or all are known and equal. Known is what is bound, and what no pattern of the branch has.
pub fn left_out(plan: &Plan, branch: &Branch, bound: &Bound, threshold: &[u32]) -> bool {
    let Ending::Top(_, rows, keys) = &plan.ending else {
        return false;
    };
    let named = |key: u32| branch.patterns.iter().flatten().any(|&word| word == variable(key));
    for &(falls, key) in keys {
        let value = bound[key as usize];
        if value.is_none() && named(key) {
            return false;
        }
        let own = rank_by(falls, value.unwrap_or(UNBOUND));
        let limit = rank_by(falls, key_word(rows, key, threshold));
        if own != limit {
            return own > limit;
        }
    }
    true
}

/// Whether no two of these rows are equal in all keys of a best-of plan.
pub fn are_apart(plan: &Plan, rows: &[&[u32]]) -> bool {
    let mut keys: Vec<_> = rows.iter().map(|row| plan.keys_of(row)).collect();
    keys.sort();
    keys.windows(2).all(|pair| pair[0] != pair[1])
}

impl Plan {
    /// What the keys of a best-of plan compare of a row.
    pub fn keys_of(&self, row: &[u32]) -> Vec<(i64, i64)> {
        match &self.ending {
            Ending::Top(_, rows, keys) => sort_key(rows, keys, row),
            _ => Vec::new(),
        }
    }
}

/// A group's totals: rows, numbers, sum, and the least and greatest number.
#[derive(Clone, Debug, Default)]
struct Totals {
    rows: i128,
    numbers: i128,
    sum: i128,
    values: Option<(i64, i64)>,
}

/// The totals of no rows.
pub const NOTHING: [u32; 8] = [0, 0, 0, 0, 0, 0, UNBOUND, UNBOUND];

/// Groups by the ranks of their keys, with the keys.
type Groups = BTreeMap<Vec<(u32, i64)>, (Vec<u32>, Totals)>;

impl Totals {
    fn of_value(word: u32) -> Totals {
        match term_kind(word) {
            NUMBER => Totals {
                rows: 1,
                numbers: 1,
                sum: number_value(word).into(),
                values: Some((number_value(word), number_value(word))),
            },
            _ => Totals {
                rows: 1,
                ..Totals::default()
            },
        }
    }

    fn add(&mut self, other: &Totals) {
        self.rows += other.rows;
        self.numbers += other.numbers;
        self.sum += other.sum;
        self.values = match (self.values, other.values) {
            (Some((a, b)), Some((c, d))) => Some((a.min(c), b.max(d))),
            (one, other) => one.or(other),
        };
    }

    /// The totals of the last eight words of a record with so many keys, unless test 12 refuses them: rows 0 are for one without keys.
    fn read(keys: usize, words: &[u32]) -> Option<Totals> {
        let wide = |at: usize| i128::from(words[at]) + (i128::from(words[at + 1]) << 32);
        let sum = if wide(4) >> 63 == 0 { wide(4) } else { wide(4) - (1 << 64) };
        let (rows, numbers, least, greatest) = (wide(0), wide(2), words[6], words[7]);
        let values = match numbers {
            0 if sum == 0 && least == UNBOUND && greatest == UNBOUND => None,
            0 => return None,
            _ if term_kind(least) != NUMBER || term_kind(greatest) != NUMBER => return None,
            _ if number_value(least) > number_value(greatest) => return None,
            _ => Some((number_value(least), number_value(greatest))),
        };
        let enough = rows > 0 || keys == 0;
        (enough && numbers <= rows).then_some(Totals {
            rows,
            numbers,
            sum,
            values,
        })
    }

    fn words(&self) -> Vec<u32> {
        let word = |value: i64| number(value as i32);
        let (least, greatest) = self
            .values
            .map_or((UNBOUND, UNBOUND), |(least, greatest)| (word(least), word(greatest)));
        let halves = [self.rows, self.numbers, self.sum]
            .into_iter()
            .flat_map(|total| [total as u32, (total >> 32) as u32]);
        halves.chain([least, greatest]).collect()
    }

    fn fits(&self) -> bool {
        let sums = -(1i128 << 63)..1 << 63;
        self.rows >> 64 == 0 && self.numbers >> 64 == 0 && sums.contains(&self.sum)
    }
}

fn add_group(groups: &mut Groups, keys: &[u32], totals: &Totals) {
    let ranks = keys.iter().map(|&word| rank(word)).collect();
    groups
        .entry(ranks)
        .or_insert_with(|| (keys.to_vec(), Totals::default()))
        .1
        .add(totals);
}

fn record_words(groups: &Groups) -> Vec<u32> {
    groups
        .values()
        .flat_map(|(keys, totals)| keys.iter().copied().chain(totals.words()))
        .collect()
}

/// The list of a turn that is done: that of its rows; without a group variable it has a record always, of nothing if there are none.
pub fn last_list(plan: &Plan, delivered: &[&[u32]], threshold: &[u32]) -> Vec<u32> {
    match &plan.ending {
        Ending::Group(by, _) if by.is_empty() && delivered.is_empty() => NOTHING.to_vec(),
        _ => list(plan, delivered, threshold),
    }
}

/// The list that delivered rows make.
pub fn list(plan: &Plan, delivered: &[&[u32]], threshold: &[u32]) -> Vec<u32> {
    match &plan.ending {
        Ending::Rows(_) => delivered.concat(),
        Ending::Top(_, rows, keys) => {
            let key = |row: &&[u32]| sort_key(rows, keys, row);
            let mut best = delivered.to_vec();
            best.retain(|row| threshold.is_empty() || key(row) < key(&threshold));
            best.sort_by_key(key);
            best.truncate(plan.k());
            best.concat()
        }
        Ending::Group(by, _) => {
            let mut groups = Groups::new();
            for row in delivered {
                add_group(&mut groups, &row[..by.len()], &Totals::of_value(row[by.len()]));
            }
            record_words(&groups)
        }
        Ending::Registers(_) => registers::registers(delivered.iter().map(|row| row[0])),
    }
}

/// The groups of a list, unless test 12 refuses it.
fn read_groups(keys: usize, list: &[u32]) -> Option<Vec<(&[u32], Totals)>> {
    let records = list.chunks(keys + 8).map(|record| {
        let (named, totals) = record.split_at_checked(keys)?;
        let right = totals.len() == 8 && named.iter().all(|&word| delivered(word));
        Some((named, Totals::read(keys, right.then_some(totals)?)?))
    });
    let groups = records.collect::<Option<Vec<_>>>()?;
    let ranks: Vec<Vec<_>> = groups
        .iter()
        .map(|(named, _)| named.iter().map(|&word| rank(word)).collect())
        .collect();
    ranks.windows(2).all(|pair| pair[0] < pair[1]).then_some(groups)
}

/// The rows of a list, unless test 12 refuses it.
fn read_best<'a>(plan: &Plan, rows: &[u32], keys: &[(bool, u32)], list: &'a [u32]) -> Option<Vec<&'a [u32]>> {
    let parts: Vec<&[u32]> = list.chunks(rows.len()).collect();
    let whole = list.len() % rows.len() == 0 && parts.len() <= plan.k() && list.iter().all(|&word| delivered(word));
    let ordered = || {
        parts
            .windows(2)
            .all(|pair| sort_key(rows, keys, pair[0]) <= sort_key(rows, keys, pair[1]))
    };
    (whole && ordered()).then_some(parts)
}

/// The merged list, or the number of the test that fails, 12 or 13.
pub fn merged(plan: &Plan, kept: &[u32], list: &[u32]) -> Result<Vec<u32>, u32> {
    match &plan.ending {
        Ending::Rows(_) => Err(12),
        Ending::Registers(_) => registers::merged(kept, list),
        Ending::Top(_, rows, keys) => {
            let kept = read_best(plan, rows, keys, kept).ok_or(12u32)?;
            let made = read_best(plan, rows, keys, list).ok_or(12u32)?;
            Ok(self::list(plan, &[kept, made].concat(), &[]))
        }
        Ending::Group(by, _) => {
            let kept = read_groups(by.len(), kept).ok_or(12u32)?;
            let made = read_groups(by.len(), list).ok_or(12u32)?;
            let mut groups = Groups::new();
            kept.iter()
                .chain(&made)
                .for_each(|(keys, totals)| add_group(&mut groups, keys, totals));
            if groups.values().all(|(_, totals)| totals.fits()) {
                Ok(record_words(&groups))
            } else {
                Err(13)
            }
        }
    }
}
