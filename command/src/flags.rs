//! What a cruiser must look at in rows that were read: two values where one is expected, and values far outside of their column. Nothing is
//! dropped for it.

use std::collections::HashMap;

use crate::rows::{Object, Row, Rows};

/// How many times the median a number may have before it is flagged.
const FAR: i64 = 10;

/// A row to look at, and why.
#[derive(Clone, Debug, PartialEq, Eq)]
pub enum Flag {
    /// The same subject, predicate and year has another value in an earlier line.
    TwoValues { row: Row, earlier: Row },
    /// A number ten times the median of its predicate and year, or more.
    FarOutside { row: Row, median: i32 },
}

/// The value that stands in the middle, the lower of two.
fn median(mut values: Vec<i32>) -> i32 {
    let middle = (values.len() - 1) / 2;
    *values.select_nth_unstable(middle).1
}

/// All that is to be looked at, in the order of the rows.
pub fn flags(rows: &Rows) -> Vec<Flag> {
    let mut columns: HashMap<(u16, u32), Vec<i32>> = HashMap::new();
    for row in &rows.rows {
        if let Object::Number(value) = row.object {
            columns.entry((row.year, row.predicate)).or_default().push(value);
        }
    }
    let medians: HashMap<(u16, u32), i32> = columns.into_iter().map(|(column, values)| (column, median(values))).collect();
    let mut first: HashMap<(u16, u32, u32), Row> = HashMap::new();
    let mut flags = Vec::new();
    for &row in &rows.rows {
        let earlier = *first.entry((row.year, row.subject, row.predicate)).or_insert(row);
        if earlier.object != row.object {
            flags.push(Flag::TwoValues { row, earlier });
        }
        let (Object::Number(value), Some(&median)) = (row.object, medians.get(&(row.year, row.predicate))) else {
            continue;
        };
        if median != 0 && i64::from(value).abs() >= FAR * i64::from(median).abs() {
            flags.push(Flag::FarOutside { row, median });
        }
    }
    flags
}

#[cfg(test)]
mod tests {
    use super::*;
    use crate::tablet::{read, Reading};

    #[test]
    fn two_values_and_far_ones() {
        let text = "stem,dbh_mm,year\na,310,2026\nb,300,2026\nc,3100,2026\na,320,2026\na,310,2026\n";
        let mut rows = Rows::default();
        read("t.csv", text, &Reading::default(), &mut rows).unwrap();
        let lines: Vec<(u32, bool)> = flags(&rows)
            .iter()
            .map(|flag| match flag {
                Flag::TwoValues { row, .. } => (row.line, true),
                Flag::FarOutside { row, .. } => (row.line, false),
            })
            .collect();
        assert_eq!(lines, [(4, false), (5, true)]);
    }
}
