//! Plans: read from words (test 5), their variables (test 6), and written again.

use std::collections::BTreeSet;

use super::words::*;

#[derive(Clone, Debug, PartialEq)]
pub enum Condition {
    True,
    And(Box<Condition>, Box<Condition>),
    Or(Box<Condition>, Box<Condition>),
    Not(Box<Condition>),
    Compare(u32, u32, u32),
}

#[derive(Clone, Debug, PartialEq)]
pub struct Branch {
    pub patterns: Vec<[u32; 3]>,
    pub condition: Condition,
}

/// Variables by their numbers; a key is whether it falls, and its variable.
#[derive(Clone, Debug, PartialEq)]
pub enum Ending {
    Rows(Vec<u32>),
    Top(u32, Vec<u32>, Vec<(bool, u32)>),
    Group(Vec<u32>, u32),
    Registers(u32),
}

#[derive(Clone, Debug, PartialEq)]
pub struct Plan {
    /// The number of a year's word before the head: 0 for every year, none for the latest.
    pub year: Option<u32>,
    pub branches: Vec<Branch>,
    pub ending: Ending,
}

/// The words of a plan not yet read.
struct Rest<'a>(&'a [u32]);

impl Rest<'_> {
    fn word(&mut self) -> Option<u32> {
        let (&word, rest) = self.0.split_first()?;
        self.0 = rest;
        Some(word)
    }

    /// A count of the kind, from `least` to `most`.
    fn counted(&mut self, wanted: u32, least: u32, most: u32) -> Option<u32> {
        let word = self.word()?;
        (kind(word) == wanted && (least..=most).contains(&count(word))).then(|| count(word))
    }

    fn variable(&mut self) -> Option<u32> {
        let word = self.word()?;
        (term_kind(word) == VARIABLE).then(|| term_value(word))
    }

    fn variables(&mut self, many: u32) -> Option<Vec<u32>> {
        (0..many).map(|_| self.variable()).collect()
    }

    /// A condition whose root may have `deep` levels below and with it; `nodes` are those still allowed.
    fn condition(&mut self, deep: u32, nodes: &mut u32) -> Option<Condition> {
        if deep == 0 || *nodes == 0 {
            return None;
        }
        *nodes -= 1;
        let word = self.word()?;
        if kind(word) == COMPARISON {
            return match count(word) {
                0..=5 => Some(Condition::Compare(count(word), self.word()?, self.word()?)),
                _ => None,
            };
        }
        if count(word) != 0 {
            return None;
        }
        let mut part = || self.condition(deep - 1, nodes).map(Box::new);
        match kind(word) {
            TRUE => Some(Condition::True),
            NOT => Some(Condition::Not(part()?)),
            AND => Some(Condition::And(part()?, part()?)),
            OR => Some(Condition::Or(part()?, part()?)),
            _ => None,
        }
    }

    fn branch(&mut self) -> Option<Branch> {
        let many = self.counted(BRANCH, 1, 8)?;
        let patterns = (0..many)
            .map(|_| Some([self.word()?, self.word()?, self.word()?]))
            .collect::<Option<_>>()?;
        Some(Branch {
            patterns,
            condition: self.condition(8, &mut 31)?,
        })
    }

    fn rows(&mut self) -> Option<Vec<u32>> {
        let many = self.counted(ROWS, 1, 16)?;
        self.variables(many)
    }

    fn key(&mut self) -> Option<(bool, u32)> {
        let word = self.word()?;
        matches!(kind(word), RISING | FALLING).then(|| (kind(word) == FALLING, count(word)))
    }

    fn ending(&mut self) -> Option<Ending> {
        match kind(*self.0.first()?) {
            ROWS => Some(Ending::Rows(self.rows()?)),
            TOP => {
                let (k, rows, many) = (self.counted(TOP, 0, 64)?, self.rows()?, self.0.len());
                let keys = (0..many).map(|_| self.key()).collect::<Option<Vec<_>>>()?;
                (1..=4).contains(&keys.len()).then_some(Ending::Top(k, rows, keys))
            }
            GROUP => {
                let many = self.counted(GROUP, 0, 4)?;
                Some(Ending::Group(self.variables(many)?, self.variable()?))
            }
            IN_REGISTERS => {
                self.counted(IN_REGISTERS, 0, 0)?;
                Some(Ending::Registers(self.variable()?))
            }
            _ => None,
        }
    }
}

/// The plan of some words, unless test 5 fails.
pub fn read(words: &[u32]) -> Option<Plan> {
    let mut rest = Rest(words);
    let year = match words.first() {
        Some(&word) if kind(word) == YEAR => rest.word().map(count),
        _ => None,
    };
    let branches = (0..rest.counted(HEAD, 1, 4)?).map(|_| rest.branch()).collect::<Option<_>>()?;
    let ending = rest.ending()?;
    (words.len() <= 256 && rest.0.is_empty()).then_some(Plan { year, branches, ending })
}

impl Condition {
    fn variables(&self) -> BTreeSet<u32> {
        match self {
            Condition::True => BTreeSet::new(),
            Condition::Not(part) => part.variables(),
            Condition::And(left, right) | Condition::Or(left, right) => &left.variables() | &right.variables(),
            Condition::Compare(_, left, right) => variables_of([*left, *right]),
        }
    }

    fn write(&self, words: &mut Vec<u32>) {
        let mut node = |kind, parts: &[&Condition]| {
            words.push(marked(kind, 0));
            parts.iter().for_each(|part| part.write(words));
        };
        match self {
            Condition::True => node(TRUE, &[]),
            Condition::Not(part) => node(NOT, &[part]),
            Condition::And(left, right) => node(AND, &[left, right]),
            Condition::Or(left, right) => node(OR, &[left, right]),
            Condition::Compare(comparison, left, right) => words.extend([marked(COMPARISON, *comparison), *left, *right]),
        }
    }
}

/// The numbers of the variables among some terms.
fn variables_of(terms: impl IntoIterator<Item = u32>) -> BTreeSet<u32> {
    terms
        .into_iter()
        .filter(|&word| term_kind(word) == VARIABLE)
        .map(term_value)
        .collect()
}

fn all_different(variables: &[u32]) -> bool {
    variables.iter().collect::<BTreeSet<_>>().len() == variables.len()
}

impl Branch {
    pub fn binds(&self) -> BTreeSet<u32> {
        variables_of(self.patterns.iter().flatten().copied())
    }
}

impl Plan {
    /// Test 6.
    pub fn variables_right(&self) -> bool {
        let bound: BTreeSet<u32> = self.branches.iter().flat_map(Branch::binds).collect();
        let conditions = self
            .branches
            .iter()
            .all(|branch| branch.condition.variables().is_subset(&branch.binds()));
        let listed = |variables: &[u32]| variables.iter().all(|v| bound.contains(v)) && all_different(variables);
        let ending = match &self.ending {
            Ending::Rows(rows) => listed(rows),
            Ending::Top(_, rows, keys) => listed(rows) && keys.iter().all(|(_, key)| rows.contains(key)),
            Ending::Group(by, measured) => listed(by) && bound.contains(measured),
            Ending::Registers(counted) => bound.contains(counted),
        };
        // What is not bound is refused as it is, so only bound variables are left to be above ?15.
        conditions && ending && bound.iter().all(|&v| v <= 15)
    }

    /// Test 23.
    pub fn year_right(&self) -> bool {
        !self.year.is_some_and(|year| year > MOST_YEAR)
    }

    /// The variables whose values a delivery has: the columns, the group variables and the measured one, or the one that registers count.
    pub fn columns(&self) -> Vec<u32> {
        match &self.ending {
            Ending::Rows(rows) | Ending::Top(_, rows, _) => rows.clone(),
            Ending::Group(by, measured) => by.iter().chain([measured]).copied().collect(),
            Ending::Registers(counted) => vec![*counted],
        }
    }

    /// The words of a row, of a group's record, or of all registers.
    pub fn width(&self) -> usize {
        match &self.ending {
            Ending::Rows(rows) | Ending::Top(_, rows, _) => rows.len(),
            Ending::Group(by, _) => by.len() + 8,
            Ending::Registers(_) => 16,
        }
    }

    pub fn k(&self) -> usize {
        match self.ending {
            Ending::Top(0, ..) => 10,
            Ending::Top(k, ..) => k as usize,
            _ => 1,
        }
    }

    /// The words that test 7 asks of an output.
    pub fn least_output(&self) -> usize {
        self.k() * self.width()
    }

    pub fn words(&self) -> Vec<u32> {
        let mut words: Vec<u32> = self.year.iter().map(|&year| marked(YEAR, year)).collect();
        words.push(marked(HEAD, self.branches.len() as u32));
        for branch in &self.branches {
            words.push(marked(BRANCH, branch.patterns.len() as u32));
            words.extend(branch.patterns.iter().flatten());
            branch.condition.write(&mut words);
        }
        match &self.ending {
            Ending::Rows(_) => words.push(marked(ROWS, self.columns().len() as u32)),
            Ending::Top(k, rows, _) => words.extend([marked(TOP, *k), marked(ROWS, rows.len() as u32)]),
            Ending::Group(by, _) => words.push(marked(GROUP, by.len() as u32)),
            Ending::Registers(_) => words.push(marked(IN_REGISTERS, 0)),
        }
        words.extend(self.columns().into_iter().map(variable));
        if let Ending::Top(_, _, keys) = &self.ending {
            words.extend(
                keys.iter()
                    .map(|&(falls, key)| marked(if falls { FALLING } else { RISING }, key)),
            );
        }
        words
    }
}
