//! Terms, as plans and tables have them, and values, as rows deliver them.

use std::error::Error;
use std::fmt;

/// The word that means unbound in a delivered row.
pub const UNBOUND: u32 = 0xC000_0000;

/// A value that a word's low bits cannot hold: 30 of them in a term, which for a number are two's complement, and 28 in a plan word.
#[derive(Clone, Copy, Debug, PartialEq, Eq, Hash)]
pub struct TooLarge {
    /// The value.
    pub value: i64,
    /// The least value that the word can have.
    pub least: i64,
    /// The greatest value that the word can have.
    pub most: i64,
}

impl TooLarge {
    /// That a value from 0 on does not fit in so many bits.
    pub(crate) fn of_bits(value: u64, bits: u32) -> TooLarge {
        TooLarge {
            value: i64::try_from(value).unwrap_or(i64::MAX),
            least: 0,
            most: (1 << bits) - 1,
        }
    }
}

impl fmt::Display for TooLarge {
    fn fmt(&self, f: &mut fmt::Formatter<'_>) -> fmt::Result {
        write!(
            f,
            "{} does not fit in its word: give a value from {} to {}",
            self.value, self.least, self.most
        )
    }
}

impl Error for TooLarge {}

/// A variable of a plan, by its number. The rules have ?0 to ?15; a plan with another is refused by the engine, with
/// [`Refusal::PlanVariables`](crate::Refusal::PlanVariables).
#[derive(Clone, Copy, Debug, PartialEq, Eq, PartialOrd, Ord, Hash)]
pub struct Variable(pub u32);

/// A term: a name, a whole number, a text, or in a plan a variable. Names and texts are the dictionary's numbers.
///
/// Anything can be put in; [`Term::word`] refuses what 30 bits do not hold. A number lies from −536,870,912 to 536,870,911, and its bits are
/// two's complement.
///
/// ```
/// use sotjarn::{Term, Variable};
///
/// assert_eq!(Term::Number(310).word(), Ok(0x4000_0136));
/// assert_eq!(Term::Number(-3).word(), Ok(0x7FFF_FFFD));
/// assert_eq!(Term::Number(-3).to_string(), "i-3");
/// assert_eq!(Term::from(Variable(1)).word(), Ok(0xC000_0001));
/// assert_eq!(Term::Text(7).to_string(), "t7");
/// assert!(Term::Name(1 << 30).word().is_err());
/// assert!(Term::Number(1 << 29).word().is_err());
/// ```
#[derive(Clone, Copy, Debug, PartialEq, Eq, Hash)]
pub enum Term {
    /// A name (an IRI).
    Name(u32),
    /// A whole number, which may be below zero.
    Number(i32),
    /// A text.
    Text(u32),
    /// A variable in a plan.
    Variable(Variable),
}

impl Term {
    // The kinds, in a term's top two bits.
    const NAME: u32 = 0;
    const NUMBER: u32 = 1;
    const TEXT: u32 = 2;
    const VARIABLE: u32 = 3;

    pub(crate) const VALUE_BITS: u32 = 30;

    const VALUES: u32 = 1 << Term::VALUE_BITS;

    /// The number after the greatest; the least is this below zero.
    const NUMBERS: i32 = 1 << (Term::VALUE_BITS - 1);

    /// Its word, unless 30 bits do not hold the value.
    pub fn word(self) -> Result<u32, TooLarge> {
        match self {
            Term::Name(value) => Term::with_kind(Term::NAME, value),
            Term::Number(value) => Term::number(value),
            Term::Text(value) => Term::with_kind(Term::TEXT, value),
            Term::Variable(Variable(number)) => Term::with_kind(Term::VARIABLE, number),
        }
    }

    fn with_kind(kind: u32, value: u32) -> Result<u32, TooLarge> {
        if value >= Term::VALUES {
            return Err(TooLarge::of_bits(value.into(), Term::VALUE_BITS));
        }
        Ok(kind << Term::VALUE_BITS | value)
    }

    fn number(value: i32) -> Result<u32, TooLarge> {
        if !(-Term::NUMBERS..Term::NUMBERS).contains(&value) {
            return Err(TooLarge {
                value: value.into(),
                least: (-Term::NUMBERS).into(),
                most: (Term::NUMBERS - 1).into(),
            });
        }
        Ok(Term::NUMBER << Term::VALUE_BITS | value as u32 & (Term::VALUES - 1))
    }

    /// The number of a word's low bits.
    fn signed(bits: u32) -> i32 {
        ((bits << (32 - Term::VALUE_BITS)) as i32) >> (32 - Term::VALUE_BITS)
    }

    /// The term of a word. Every word is one; where a row delivers the word, read it as a [`Value`] instead.
    pub fn read(word: u32) -> Term {
        let value = word & (Term::VALUES - 1);
        match word >> Term::VALUE_BITS {
            Term::NAME => Term::Name(value),
            Term::NUMBER => Term::Number(Term::signed(value)),
            Term::TEXT => Term::Text(value),
            _ => Term::Variable(Variable(value)),
        }
    }
}

impl From<Variable> for Term {
    fn from(variable: Variable) -> Term {
        Term::Variable(variable)
    }
}

impl fmt::Display for Variable {
    fn fmt(&self, f: &mut fmt::Formatter<'_>) -> fmt::Result {
        write!(f, "?{}", self.0)
    }
}

impl fmt::Display for Term {
    fn fmt(&self, f: &mut fmt::Formatter<'_>) -> fmt::Result {
        match self {
            Term::Name(value) => write!(f, "n{value}"),
            Term::Number(value) => write!(f, "i{value}"),
            Term::Text(value) => write!(f, "t{value}"),
            Term::Variable(variable) => variable.fmt(f),
        }
    }
}

/// What a delivered row has in a column, or a group as a key. Values are ordered as keys order them: unbound first, then names,
/// numbers, texts, each by value.
///
/// ```
/// use sotjarn::Value;
///
/// assert_eq!(Value::read(0x4000_0136), Some(Value::Number(310)));
/// assert_eq!(Value::read(0xC000_0000), Some(Value::Unbound));
/// assert_eq!(Value::read(0xC000_0001), None); // a variable: no row delivers it
/// assert_eq!(Value::read(0x7FFF_FFFF), Some(Value::Number(-1)));
/// assert!(Value::Unbound < Value::Name(5) && Value::Name(5) < Value::Number(-1) && Value::Number(-1) < Value::Number(0));
/// ```
#[derive(Clone, Copy, Debug, PartialEq, Eq, PartialOrd, Ord, Hash)]
pub enum Value {
    /// The row's branch does not bind the variable.
    Unbound,
    /// A name (an IRI).
    Name(u32),
    /// A whole number, which may be below zero.
    Number(i32),
    /// A text.
    Text(u32),
}

impl Value {
    /// The value of a delivered word; none for a word of kind 3 other than unbound.
    pub fn read(word: u32) -> Option<Value> {
        match Term::read(word) {
            Term::Name(value) => Some(Value::Name(value)),
            Term::Number(value) => Some(Value::Number(value)),
            Term::Text(value) => Some(Value::Text(value)),
            Term::Variable(_) if word == UNBOUND => Some(Value::Unbound),
            Term::Variable(_) => None,
        }
    }
}

impl fmt::Display for Value {
    fn fmt(&self, f: &mut fmt::Formatter<'_>) -> fmt::Result {
        match self {
            Value::Unbound => f.write_str("-"),
            Value::Name(value) => write!(f, "n{value}"),
            Value::Number(value) => write!(f, "i{value}"),
            Value::Text(value) => write!(f, "t{value}"),
        }
    }
}
