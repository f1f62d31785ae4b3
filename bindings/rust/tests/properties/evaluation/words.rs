//! The words of the rules: terms, plan words, state words.

pub const UNBOUND: u32 = 0xC000_0000;
pub const MOST_VALUE: u32 = 0x3FFF_FFFF;
pub const MOST_NUMBER: i32 = 0x1FFF_FFFF;
pub const MOST_YEAR: u32 = 9_999;
pub const MOST_COUNT: u32 = 0x0FFF_FFFF;

pub const NAME: u32 = 0;
pub const NUMBER: u32 = 1;
pub const TEXT: u32 = 2;
pub const VARIABLE: u32 = 3;

pub const YEAR: u32 = 0;
pub const HEAD: u32 = 1;
pub const BRANCH: u32 = 2;
pub const TRUE: u32 = 3;
pub const AND: u32 = 4;
pub const OR: u32 = 5;
pub const NOT: u32 = 6;
pub const COMPARISON: u32 = 7;
pub const ROWS: u32 = 8;
pub const TOP: u32 = 9;
pub const RISING: u32 = 10;
pub const FALLING: u32 = 11;
pub const GROUP: u32 = 12;
pub const IN_REGISTERS: u32 = 13;
pub const SURVEY: u32 = 13;
pub const STATE: u32 = 14;
pub const PLACE: u32 = 15;

pub fn term(kind: u32, value: u32) -> u32 {
    kind << 30 | value
}

pub fn name(value: u32) -> u32 {
    term(NAME, value)
}

/// A number, by its value.
pub fn number(value: i32) -> u32 {
    term(NUMBER, value as u32 & MOST_VALUE)
}

/// The value of a number: its 30 bits are two's complement.
pub fn number_value(word: u32) -> i64 {
    let bits = i64::from(term_value(word));
    if bits < 1 << 29 {
        bits
    } else {
        bits - (1 << 30)
    }
}

pub fn variable(number: u32) -> u32 {
    term(VARIABLE, number)
}

pub fn term_kind(word: u32) -> u32 {
    word >> 30
}

pub fn term_value(word: u32) -> u32 {
    word & MOST_VALUE
}

/// A plan word or a state word.
pub fn marked(kind: u32, count: u32) -> u32 {
    kind << 28 | count
}

pub fn kind(word: u32) -> u32 {
    word >> 28
}

pub fn count(word: u32) -> u32 {
    word & MOST_COUNT
}

/// Whether a delivered row may have the word.
pub fn delivered(word: u32) -> bool {
    term_kind(word) != VARIABLE || word == UNBOUND
}

/// What a word counts for among those of its kind.
pub fn value(word: u32) -> i64 {
    match term_kind(word) {
        NUMBER => number_value(word),
        _ => term_value(word).into(),
    }
}

/// Where a word stands among the values of a key: unbound first, then names, numbers, texts, each by value.
pub fn rank(word: u32) -> (u32, i64) {
    if word == UNBOUND {
        (0, 0)
    } else {
        (1 + term_kind(word), value(word))
    }
}
