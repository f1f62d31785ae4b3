//! Random tables.

use super::random::Random;
use crate::evaluation::growing;
use crate::evaluation::tables::{Row, Tables};
use crate::evaluation::words::*;

/// A number, mostly small, now and then at an end of its range.
pub fn some_number(random: &mut Random) -> u32 {
    let value = random.small(7) as i32;
    number(random.pick(&[
        value,
        value,
        value - 3,
        45,
        310,
        MOST_NUMBER - 1,
        MOST_NUMBER,
        -MOST_NUMBER,
        -MOST_NUMBER - 1,
    ]))
}

/// The number of a survey, of 28 bits.
pub fn survey(random: &mut Random) -> u32 {
    let some = random.small(1 << 28);
    random.pick(&[0, 1, 7, some, some, MOST_COUNT])
}

/// A number that no survey has, mostly one that is right in its low 28 bits.
pub fn no_survey(random: &mut Random, right: u32) -> u32 {
    let high = random.between(1, 15) as u32;
    random.pick(&[right | 1 << 28, right | high << 28, MOST_COUNT + 1, u32::MAX])
}

/// Years of a wood, ascending, often one.
fn years(random: &mut Random) -> Vec<u32> {
    let mut years = random.some(&[1, 2, 1999, 2025, 2026, MOST_YEAR], 1, 4);
    years.sort();
    years.dedup();
    years.truncate(random.pick(&[1, 1, 1, 2, 4]));
    years
}

/// Tables of at most so many rows. Names are few, so that patterns join; predicates may be names of subjects too.
pub fn wood(random: &mut Random, rows: usize) -> Tables {
    let few = random.pick(&[3, 6, rows as u32 / 2 + 3]);
    let (names, predicates) = (2 + random.small(few), 1 + random.small(4));
    let first_predicate = random.pick(&[0, 10, 10, MOST_VALUE - 3]);
    let years = years(random);
    let row = |random: &mut Random| -> Row {
        let (subject, other) = (name(random.small(names)), name(random.small(names)));
        let predicate = name(first_predicate + random.small(predicates));
        let object = match random.small(10) {
            0..=3 => other,
            4 => predicate,
            5..=7 => some_number(random),
            8 => number(random.small(1 << 20) as i32),
            _ => term(TEXT, random.small(4)),
        };
        [number(random.pick(&years) as i32), subject, predicate, object]
    };
    Tables::of((0..rows).map(|_| row(random)).collect())
}

/// A wood of stems as the three-stem wood has them, a stand (n10) and a diameter (n12) each: the one that is grown from a seed.
pub fn stems(random: &mut Random, many: u32) -> Tables {
    growing::wood(random.word(), many, 2026)
}
