//! A reader of registers, and what a report on them tells roughly.

use crate::calls::{REGISTERS, REPORT_WORDS};
use crate::lists::Unreadable;

/// The most that a register may have.
const MOST_RANK: u32 = 61;

/// The registers of a list: none of them, as before the first list is merged, are all 0.
///
/// ```
/// use sotjarn::read_registers;
///
/// assert_eq!(read_registers(&[])?, [0; 16]);
/// assert_eq!(read_registers(&[2; 16])?, [2; 16]);
/// assert!(read_registers(&[2; 15]).is_err());
/// assert!(read_registers(&[62; 16]).is_err());
/// # Ok::<(), sotjarn::Unreadable>(())
/// ```
pub fn read_registers(list: &[u32]) -> Result<[u32; REGISTERS], Unreadable> {
    if list.is_empty() {
        return Ok([0; REGISTERS]);
    }
    match <[u32; REGISTERS]>::try_from(list) {
        Ok(registers) if registers.iter().all(|&register| register <= MOST_RANK) => Ok(registers),
        _ => Err(Unreadable("registers are 16 words, none above 61")),
    }
}

/// Roughly how many distinct values were counted, from a report on their registers: the estimate of HyperLogLog with 16 registers, by
/// how many are untouched where it is small.
///
/// What it is worth: of values that stand at random among all names, 9 of 10 estimates lie between six tenths and one and three quarters of
/// the right number, as with any good hash and 16 registers. But the hash of the rules, 64-bit FNV-1a of four bytes, hardly carries the high
/// bytes of a word to the top bits that pick a register, so that values that stand close together or in steps come out far off, mostly far too low: the
/// 600 numbers i20 to i619 as 40, the 600 names from n1000000 on as 128, any number of names that are 65,536 apart as 1. It is good for telling
/// few from many, and for comparing the same kind of values over time. docs/FORMATS.md has the table, measured.
///
/// ```
/// use sotjarn::{estimate, report, REPORT_WORDS};
///
/// let kept = [0, 0, 3, 0, 1, 0, 0, 0, 0, 0, 0, 1, 0, 0, 0, 0]; // three registers of 16 are touched
/// let mut counts = [0; REPORT_WORDS];
/// report(&kept, 16, &mut counts)?;
/// assert_eq!(estimate(&counts)?.round(), 3.0);
/// # Ok::<(), Box<dyn std::error::Error>>(())
/// ```
pub fn estimate(report: &[u32]) -> Result<f64, Unreadable> {
    let whole = report.len() == REPORT_WORDS && report.iter().map(|&count| count as usize).sum::<usize>() == REGISTERS;
    if !whole {
        return Err(Unreadable("a report has 62 counts, which make 16"));
    }
    let all = REGISTERS as f64;
    let untouched = f64::from(report[0]);
    let weights: f64 = (0..)
        .zip(report)
        .map(|(value, &count)| f64::from(count) * 0.5f64.powi(value))
        .sum();
    let estimate = 0.673 * all * all / weights;
    if estimate <= 2.5 * all && untouched > 0.0 {
        return Ok(all * (all / untouched).ln());
    }
    Ok(estimate)
}
