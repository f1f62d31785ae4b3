//! Random uploads: rows as they were measured, with repeats and wrong kinds, and buffers of all lengths.

use super::random::Random;
use super::woods;
use crate::evaluation::tables::{Row, Tables};
use crate::evaluation::uploads::{made, Make};
use crate::evaluation::words::*;

/// A row of a wrong kind, made of a right one.
fn wronged(random: &mut Random, mut row: Row) -> Row {
    let at = random.below(4);
    row[at] = match at {
        0 if random.chance(60) => number(random.pick(&[0, 10_000, -1, 1 << 28])),
        0 => term(random.pick(&[NAME, TEXT, VARIABLE]), term_value(row[0])),
        3 => variable(random.pick(&[0, 1, term_value(row[3]), MOST_VALUE])),
        _ => term(random.pick(&[NUMBER, TEXT, VARIABLE]), term_value(row[at])),
    };
    row
}

/// One row of a wood, or now and then one of a wrong kind.
fn some_row(random: &mut Random, rows: &[Row], wrong: u32) -> Row {
    let row = random.pick(rows);
    match random.chance(wrong) {
        true => wronged(random, row),
        false => row,
    }
}

/// The words of so many rows, in any order or in their own.
pub fn upload(random: &mut Random, most: usize) -> Vec<u32> {
    let (most_rows, many) = (random.pick(&[1, 3, most / 2 + 1, most + 1]), random.below(most + 1));
    let wood = woods::wood(random, most_rows).quads();
    let (wrong, in_order) = (random.pick(&[0, 10, 10, 60, 100]), random.chance(20));
    let mut rows: Vec<Row> = (0..if wood.is_empty() { 0 } else { many })
        .map(|_| some_row(random, &wood, wrong))
        .collect();
    if random.chance(20) {
        rows = wood;
    }
    if in_order {
        rows.sort();
    }
    rows.concat()
}

/// A call with an upload, and with buffers that are just long enough or somewhat longer.
pub fn make(random: &mut Random, upload: Vec<u32>) -> Make {
    let (Tables { rows, pos, osp }, report) = made(&upload);
    let mut buffer = |words: &[u32]| {
        let spare = random.pick(&[0, 0, 0, 1, 2, 9]);
        random.words(words.len() + spare)
    };
    let (rows, pos, osp, report) = (buffer(&rows), buffer(&pos), buffer(&osp), buffer(&report));
    Make {
        upload,
        rows,
        pos,
        osp,
        report,
    }
}

/// One thing changed: a buffer one word too short or none at all, a word of the upload more, less or another.
pub fn damage(random: &mut Random, call: &mut Make) {
    let (Tables { rows, pos, osp }, report) = made(&call.upload);
    let one_less = |words: Vec<u32>| words.len().saturating_sub(1);
    let lengths = [one_less(rows), one_less(pos), one_less(osp), one_less(report)];
    match random.small(8) {
        0..=3 => {
            let at = random.below(4);
            let short = if random.chance(80) { lengths[at] } else { 0 };
            [&mut call.rows, &mut call.pos, &mut call.osp, &mut call.report][at].truncate(short);
        }
        4 => call.upload.push(random.word()),
        5 => drop(call.upload.pop()),
        6 => {
            let more = random.between(1, 5);
            call.upload.extend(random.words(more));
        }
        _ if call.upload.is_empty() => call.upload.push(0),
        _ => {
            let at = random.below(call.upload.len());
            call.upload[at] ^= 1 << random.pick(&[0, 1, 29, 30, 31]);
        }
    }
}

/// Words of any kind in all buffers.
pub fn made_up(random: &mut Random) -> Make {
    let mut any = |most: usize| {
        let many = random.below(most + 1);
        random.words(many)
    };
    let (upload, rows, pos, osp, report) = (any(16), any(16), any(4), any(4), any(8));
    Make {
        upload,
        rows,
        pos,
        osp,
        report,
    }
}

/// So many rows of stems, in an order that is far from theirs: a stand and a diameter each, none twice.
pub fn shuffled(random: &mut Random, many: usize) -> Vec<u32> {
    let mut rows = woods::stems(random, many.div_ceil(2) as u32).quads();
    rows.truncate(many);
    for at in (1..rows.len()).rev() {
        rows.swap(at, random.below(at + 1));
    }
    rows.concat()
}
