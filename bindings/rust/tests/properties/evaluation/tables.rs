//! Tables: tests 1, 2, 23, 3 and 4, and the three orders.

use super::words::*;

/// Year, subject, predicate, object.
pub type Row = [u32; 4];

#[derive(Clone, Debug, PartialEq)]
pub struct Tables {
    pub rows: Vec<u32>,
    pub pos: Vec<u32>,
    pub osp: Vec<u32>,
}

/// The rows in each order, with the fields in that order.
pub struct Orders {
    pub spo: Vec<Row>,
    pub pos: Vec<Row>,
    pub osp: Vec<Row>,
}

/// A number as year, names as subject and predicate, anything but a variable as object.
pub fn kinds_right([year, subject, predicate, object]: &Row) -> bool {
    term_kind(*year) == NUMBER && term_kind(*subject) == NAME && term_kind(*predicate) == NAME && term_kind(*object) != VARIABLE
}

/// A year from 1 to 9,999, by its bits.
pub fn year_right(row: &Row) -> bool {
    (1..=MOST_YEAR).contains(&term_value(row[0]))
}

fn ascend(fields: &[Row]) -> bool {
    fields.windows(2).all(|pair| pair[0] < pair[1])
}

impl Tables {
    /// Tables of rows in any order; repeats are left out.
    pub fn of(mut rows: Vec<Row>) -> Tables {
        rows.sort();
        rows.dedup();
        let sorted_by = |fields: fn(Row) -> Row| {
            let mut numbers: Vec<u32> = (0..rows.len() as u32).collect();
            numbers.sort_by_key(|&number| fields(rows[number as usize]));
            numbers
        };
        Tables {
            pos: sorted_by(|[y, s, p, o]| [y, p, o, s]),
            osp: sorted_by(|[y, s, p, o]| [y, o, s, p]),
            rows: rows.concat(),
        }
    }

    pub fn quads(&self) -> Vec<Row> {
        self.rows
            .chunks_exact(4)
            .map(|row| [row[0], row[1], row[2], row[3]])
            .collect()
    }

    /// The fields of the rows that a list names, or none where it names one that is not there.
    fn listed(&self, list: &[u32], fields: fn(Row) -> Row) -> Option<Vec<Row>> {
        let rows = self.quads();
        list.iter()
            .map(|&number| rows.get(number as usize).copied().map(fields))
            .collect()
    }

    /// The orders, or the number of the first test that fails.
    pub fn orders(&self) -> Result<Orders, u32> {
        let many = self.rows.len() / 4;
        if self.rows.len() % 4 != 0 || self.pos.len() != many || self.osp.len() != many || many > 65_536 {
            return Err(1);
        }
        let spo = self.quads();
        if !spo.iter().all(kinds_right) {
            return Err(2);
        }
        if !spo.iter().all(year_right) {
            return Err(23);
        }
        if !ascend(&spo) {
            return Err(3);
        }
        let lists = (
            self.listed(&self.pos, |[y, s, p, o]| [y, p, o, s]),
            self.listed(&self.osp, |[y, s, p, o]| [y, o, s, p]),
        );
        match lists {
            (Some(pos), Some(osp)) if ascend(&pos) && ascend(&osp) => Ok(Orders { spo, pos, osp }),
            _ => Err(4),
        }
    }
}
