//! Random woods to be grown: seeds, counts, years and buffers, good and bad.

use super::random::Random;
use crate::evaluation::growing::Grow;
use crate::evaluation::words::*;

/// A seed: small ones, the greatest, and any.
pub fn seed(random: &mut Random) -> u32 {
    let any = random.word();
    random.pick(&[0, 1, 2, any, any, any, u32::MAX])
}

/// A year that rows may have.
fn year(random: &mut Random) -> u32 {
    let any = 1 + random.small(MOST_YEAR);
    random.pick(&[1, 2026, any, any, MOST_YEAR])
}

/// Buffers that are just long enough for so many stems, or somewhat longer.
pub fn lend(random: &mut Random, seed: u32, stems: u32, year: u32) -> Grow {
    let mut buffer = |words: usize| {
        let spare = random.pick(&[0, 0, 0, 1, 2, 9]);
        random.words(words + spare)
    };
    let many = stems as usize;
    let (rows, pos, osp) = (buffer(8 * many), buffer(2 * many), buffer(2 * many));
    Grow {
        seed,
        stems,
        year,
        rows,
        pos,
        osp,
    }
}

/// A call that is served, of at most so many stems.
pub fn grow(random: &mut Random, most: u32) -> Grow {
    let some = random.small(most + 1);
    let stems = random.pick(&[0, 1, 2, some, some, some, most]);
    let (seed, year) = (seed(random), year(random));
    lend(random, seed, stems, year)
}

/// One thing changed: a year or a count that there may not be, or a buffer that is one word too short or has none at all.
pub fn damage(random: &mut Random, call: &mut Grow) {
    let any = random.word();
    match random.small(6) {
        0 => call.year = random.pick(&[0, MOST_YEAR + 1, number(2026), any, u32::MAX]),
        1 => call.stems = random.pick(&[32_769, 65_536, any | 1 << 16, u32::MAX]),
        2 => call.stems = call.stems.saturating_add(1),
        _ => {
            let (at, short) = (random.below(3), random.chance(80));
            let words = [8, 2, 2][at] * call.stems.min(1_000) as usize;
            let short = if short { words.saturating_sub(1) } else { 0 };
            [&mut call.rows, &mut call.pos, &mut call.osp][at].truncate(short);
        }
    }
}
