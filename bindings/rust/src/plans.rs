//! A builder of plans.
//!
//! It writes what it is told and leaves every limit of the rules (counts, depths, variables, repeats) to the engine, which tests
//! each plan afresh. It refuses one thing alone, with [`TooLarge`]: what a word's bits cannot hold.

use crate::calls::REGISTERS;
use crate::terms::{Term, TooLarge, Variable};

// The kinds of plan words, in their top four bits.
pub(crate) const YEAR: u32 = 0;
const HEAD: u32 = 1;
const BRANCH: u32 = 2;
const TRUE: u32 = 3;
pub(crate) const AND: u32 = 4;
pub(crate) const OR: u32 = 5;
pub(crate) const NOT: u32 = 6;
pub(crate) const COMPARISON: u32 = 7;
const ROWS: u32 = 8;
pub(crate) const TOP: u32 = 9;
const RISING: u32 = 10;
pub(crate) const FALLING: u32 = 11;
pub(crate) const GROUP: u32 = 12;
pub(crate) const IN_REGISTERS: u32 = 13;

pub(crate) const COUNT_BITS: u32 = 28;

/// The rows of a best-of list whose plan gives no number: what a k of 0 means.
const DEFAULT_BEST: u32 = 10;

/// The words of a group's record after its keys: rows, numbers and sum of two each, least, greatest.
pub(crate) const TOTALS_WORDS: usize = 8;

/// Words of a plan, and the first value that did not fit in one.
#[derive(Clone, Debug, Default, PartialEq, Eq)]
struct Words {
    words: Vec<u32>,
    too_large: Option<TooLarge>,
}

impl Words {
    fn fault(&mut self, fault: TooLarge) {
        self.too_large = self.too_large.or(Some(fault));
    }

    /// Adds a plan word.
    fn word(mut self, kind: u32, count: usize) -> Words {
        if count >> COUNT_BITS != 0 {
            self.fault(TooLarge::of_bits(count as u64, COUNT_BITS));
        }
        self.words.push(kind << COUNT_BITS | count as u32 & ((1 << COUNT_BITS) - 1));
        self
    }

    fn term(mut self, term: Term) -> Words {
        match term.word() {
            Ok(word) => self.words.push(word),
            Err(fault) => self.fault(fault),
        }
        self
    }

    fn variables(self, variables: &[Variable]) -> Words {
        variables.iter().fold(self, |words, &variable| words.term(variable.into()))
    }

    fn all(mut self, other: Words) -> Words {
        self.words.extend(other.words);
        self.too_large = self.too_large.or(other.too_large);
        self
    }
}

/// The comparisons, by their numbers in a plan.
#[derive(Clone, Copy, Debug, PartialEq, Eq, Hash)]
pub enum Comparison {
    /// =
    Equal = 0,
    /// ≠
    Unequal = 1,
    /// <
    Less = 2,
    /// ≤
    AtMost = 3,
    /// >
    More = 4,
    /// ≥
    AtLeast = 5,
}

/// A condition: true, a comparison of two terms, or conditions joined by "and", "or" and "not".
///
/// ```
/// use sotjarn::{Comparison, Condition, Term, Variable};
///
/// // not(?1 < i70) and ?0 ≠ n3
/// let condition = Condition::and(
///     Condition::not(Condition::compare(Variable(1), Comparison::Less, Term::Number(70))),
///     Condition::compare(Variable(0), Comparison::Unequal, Term::Name(3)),
/// );
/// # let _ = condition;
/// ```
#[derive(Clone, Debug, PartialEq, Eq)]
pub struct Condition(Words);

impl Condition {
    /// The condition "true".
    pub fn always() -> Condition {
        Condition(Words::default().word(TRUE, 0))
    }

    /// A comparison.
    pub fn compare(left: impl Into<Term>, comparison: Comparison, right: impl Into<Term>) -> Condition {
        Condition(
            Words::default()
                .word(COMPARISON, comparison as usize)
                .term(left.into())
                .term(right.into()),
        )
    }

    /// Both.
    pub fn and(left: Condition, right: Condition) -> Condition {
        Condition(Words::default().word(AND, 0).all(left.0).all(right.0))
    }

    /// Either.
    pub fn or(left: Condition, right: Condition) -> Condition {
        Condition(Words::default().word(OR, 0).all(left.0).all(right.0))
    }

    /// The negation; of an error it is an error.
    #[allow(clippy::should_implement_trait)] // a constructor, named as the rules name it
    pub fn not(condition: Condition) -> Condition {
        Condition(Words::default().word(NOT, 0).all(condition.0))
    }
}

/// A branch: patterns, and one condition, which is "true" unless another is given.
#[derive(Clone, Debug, Default, PartialEq, Eq)]
pub struct Branch {
    patterns: Vec<[Term; 3]>,
    condition: Option<Condition>,
}

impl Branch {
    /// A branch without patterns as yet.
    pub fn new() -> Branch {
        Branch::default()
    }

    /// Adds a pattern. The patterns run in this order.
    pub fn pattern(mut self, subject: impl Into<Term>, predicate: impl Into<Term>, object: impl Into<Term>) -> Branch {
        self.patterns.push([subject.into(), predicate.into(), object.into()]);
        self
    }

    /// Sets the condition; one given before is replaced.
    pub fn condition(mut self, condition: Condition) -> Branch {
        self.condition = Some(condition);
        self
    }

    fn words(self) -> Words {
        let head = Words::default().word(BRANCH, self.patterns.len());
        let patterns = self.patterns.into_iter().flatten().fold(head, Words::term);
        patterns.all(self.condition.unwrap_or_else(Condition::always).0)
    }
}

/// A key of a best-of list.
#[derive(Clone, Copy, Debug, PartialEq, Eq, Hash)]
pub enum Key {
    /// The least value first.
    Rising(Variable),
    /// The greatest value first.
    Falling(Variable),
}

/// How a plan ends, and with that what its lists hold.
#[derive(Clone, Debug, PartialEq, Eq)]
pub enum PlanEnding {
    /// Rows of these columns.
    Rows(Vec<Variable>),
    /// The best k rows of these columns by the keys; k = 0 means 10.
    Top {
        /// How many rows, 0 to 64.
        k: u32,
        /// The columns.
        rows: Vec<Variable>,
        /// The keys, 1 to 4.
        keys: Vec<Key>,
    },
    /// Groups by these variables, with one measured. By none: one group, the total, even of no rows.
    Group {
        /// The group variables, 0 to 4.
        by: Vec<Variable>,
        /// The measured variable.
        measured: Variable,
    },
    /// Sixteen registers of a variable's values, from which roughly is told how many distinct ones there are ([`estimate`](crate::estimate)).
    Registers(Variable),
}

impl PlanEnding {
    fn words(&self) -> Words {
        let words = Words::default();
        match self {
            PlanEnding::Rows(rows) => words.word(ROWS, rows.len()).variables(rows),
            PlanEnding::Top { k, rows, keys } => {
                let list = words.word(TOP, *k as usize).word(ROWS, rows.len()).variables(rows);
                keys.iter().fold(list, |words, key| match key {
                    Key::Rising(Variable(number)) => words.word(RISING, *number as usize),
                    Key::Falling(Variable(number)) => words.word(FALLING, *number as usize),
                })
            }
            PlanEnding::Group { by, measured } => words.word(GROUP, by.len()).variables(by).variables(&[*measured]),
            PlanEnding::Registers(variable) => words.word(IN_REGISTERS, 0).variables(&[*variable]),
        }
    }
}

/// Branches that wait for the plan's ending. Without a word on years the latest year is read.
#[derive(Clone, Debug, Default, PartialEq, Eq)]
pub struct PlanBuilder {
    year: Option<u32>,
    branches: usize,
    words: Words,
}

impl PlanBuilder {
    /// Reads every year there is, one after the other. No row joins across years; lists and groups go over all of them.
    ///
    /// ```
    /// use sotjarn::{Branch, Plan, Term::Name, Variable};
    ///
    /// let stems = Branch::new().pattern(Variable(0), Name(10), Name(100));
    /// let plan = Plan::builder().every_year().branch(stems).rows([Variable(0)])?;
    /// assert_eq!(plan.words()[..2], [0, 0x1000_0001]);
    /// # Ok::<(), sotjarn::TooLarge>(())
    /// ```
    pub fn every_year(self) -> PlanBuilder {
        PlanBuilder { year: Some(0), ..self }
    }

    /// Reads one year, even one that no row has: 1 to 9,999. 0 is every year.
    pub fn year(self, year: u32) -> PlanBuilder {
        PlanBuilder {
            year: Some(year),
            ..self
        }
    }

    /// Adds a branch. The branches run in this order, and a row that two of them deliver is delivered twice.
    pub fn branch(mut self, branch: Branch) -> PlanBuilder {
        self.branches += 1;
        self.words = self.words.all(branch.words());
        self
    }

    /// Ends the plan in rows of these columns.
    pub fn rows(self, rows: impl Into<Vec<Variable>>) -> Result<Plan, TooLarge> {
        self.ending(PlanEnding::Rows(rows.into()))
    }

    /// Ends the plan in the best k rows of these columns by the keys.
    pub fn top(self, k: u32, rows: impl Into<Vec<Variable>>, keys: impl Into<Vec<Key>>) -> Result<Plan, TooLarge> {
        self.ending(PlanEnding::Top {
            k,
            rows: rows.into(),
            keys: keys.into(),
        })
    }

    /// Ends the plan in groups by these variables, with one measured. By none it has one group at its end, the total, which may be that
    /// of nothing; by one or more, no rows are no groups.
    pub fn group(self, by: impl Into<Vec<Variable>>, measured: Variable) -> Result<Plan, TooLarge> {
        self.ending(PlanEnding::Group { by: by.into(), measured })
    }

    /// Ends the plan in registers of a variable's values: all 16 are in every turn's list, and they merge by the greater of each.
    pub fn registers(self, variable: Variable) -> Result<Plan, TooLarge> {
        self.ending(PlanEnding::Registers(variable))
    }

    /// Ends the plan.
    pub fn ending(self, ending: PlanEnding) -> Result<Plan, TooLarge> {
        let years = self
            .year
            .map_or(Words::default(), |year| Words::default().word(YEAR, year as usize));
        let written = years.word(HEAD, self.branches).all(self.words).all(ending.words());
        match written.too_large {
            None => Ok(Plan {
                words: written.words,
                ending,
            }),
            Some(fault) => Err(fault),
        }
    }
}

/// A plan: its words, and how it ends.
///
/// Stems of stand n100 with a diameter of at least 70:
///
/// ```
/// use sotjarn::Term::{Name, Number};
/// use sotjarn::{Branch, Comparison, Condition, Plan, Variable};
///
/// let (stem, diameter) = (Variable(0), Variable(1));
/// let plan = Plan::builder()
///     .branch(
///         Branch::new()
///             .pattern(stem, Name(10), Name(100))
///             .pattern(stem, Name(12), diameter)
///             .condition(Condition::compare(diameter, Comparison::AtLeast, Number(70))),
///     )
///     .rows([stem, diameter])?;
/// assert_eq!(plan.words().len(), 14);
/// assert_eq!(plan.width(), 2);
/// # Ok::<(), sotjarn::TooLarge>(())
/// ```
///
/// The builder refuses nothing that the engine refuses, such as a branch without patterns or ?16, except what no word can hold:
///
/// ```
/// use sotjarn::{Branch, Plan, Term, Variable};
///
/// let large = Branch::new().pattern(Variable(0), Term::Name(10), Term::Number(1 << 29));
/// let fault = Plan::builder().branch(large).rows([Variable(0)]).unwrap_err();
/// assert_eq!(fault.to_string(), "536870912 does not fit in its word: give a value from -536870912 to 536870911");
///
/// let no_patterns = Plan::builder().branch(Branch::new()).rows([Variable(16)]);
/// assert!(no_patterns.is_ok()); // opening it is refused by 5
/// ```
#[derive(Clone, Debug, PartialEq, Eq)]
pub struct Plan {
    pub(crate) words: Vec<u32>,
    pub(crate) ending: PlanEnding,
}

impl Plan {
    /// A plan without branches as yet.
    pub fn builder() -> PlanBuilder {
        PlanBuilder::default()
    }

    /// Its words, as the calls take them.
    pub fn words(&self) -> &[u32] {
        &self.words
    }

    /// How it ends.
    pub fn ending(&self) -> &PlanEnding {
        &self.ending
    }

    /// The words of a row, of a group's record or of all registers.
    pub fn width(&self) -> usize {
        match &self.ending {
            PlanEnding::Rows(rows) | PlanEnding::Top { rows, .. } => rows.len(),
            PlanEnding::Group { by, .. } => by.len() + TOTALS_WORDS,
            PlanEnding::Registers(_) => REGISTERS,
        }
    }

    /// The least output that a turn takes: one row, k rows, one group or all registers.
    pub fn least_output(&self) -> usize {
        match self.ending {
            PlanEnding::Top { k: 0, .. } => self.width() * DEFAULT_BEST as usize,
            PlanEnding::Top { k, .. } => self.width().saturating_mul(k as usize),
            _ => self.width(),
        }
    }
}
