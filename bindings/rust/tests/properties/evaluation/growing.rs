//! A wood made to measure, as plainly as the rules say it.

use super::tables::{Row, Tables};
use super::words::*;

/// A call of growing: seed, stems and year, and the three buffers as they are lent.
#[derive(Clone, Debug, PartialEq)]
pub struct Grow {
    pub seed: u32,
    pub stems: u32,
    pub year: u32,
    pub rows: Vec<u32>,
    pub pos: Vec<u32>,
    pub osp: Vec<u32>,
}

/// What a served call answers: the words written to rows, POS and OSP.
pub type Written = (usize, usize, usize);

/// The rows of so many stems, in a year.
fn stems(seed: u32, many: u32, year: u32) -> Vec<Row> {
    let mut x = u64::from(seed);
    let mut draw = || {
        x = (1_664_525 * x + 1_013_904_223) % (1 << 32);
        (x / 65_536) as u32
    };
    let year = number(year as i32);
    let mut rows = Vec::new();
    for stem in 0..many {
        let (stand, diameter) = (draw() % 20, draw() % 600);
        rows.push([year, name(1_000_000 + stem), name(10), name(100 + stand)]);
        rows.push([year, name(1_000_000 + stem), name(12), number(20 + diameter as i32)]);
    }
    rows
}

/// The wood of a seed.
pub fn wood(seed: u32, many: u32, year: u32) -> Tables {
    Tables::of(stems(seed, many, year))
}

fn written(buffer: &[u32], words: &[u32]) -> Vec<u32> {
    words.iter().chain(&buffer[words.len()..]).copied().collect()
}

/// The answer to a call, and its buffers at exit.
pub fn grow(call: &Grow) -> (Result<Written, u32>, Grow) {
    if call.stems > 32_768 || call.year < 1 || call.year > 9_999 {
        return (Err(24), call.clone());
    }
    let Tables { rows, pos, osp } = wood(call.seed, call.stems, call.year);
    let lengths = [(&call.rows, &rows), (&call.pos, &pos), (&call.osp, &osp)];
    if lengths.iter().any(|(buffer, words)| buffer.len() < words.len()) {
        return (Err(25), call.clone());
    }
    let at_exit = Grow {
        rows: written(&call.rows, &rows),
        pos: written(&call.pos, &pos),
        osp: written(&call.osp, &osp),
        ..call.clone()
    };
    (Ok((rows.len(), pos.len(), osp.len())), at_exit)
}
