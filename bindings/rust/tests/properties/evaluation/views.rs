//! What an adviser may see, as plainly as the rules say it: for each row all rows are looked at.

use super::tables::{Row, Tables};
use super::words::*;

/// A call of the view: the tables, the grant, the predicate of membership, and the three buffers as they are lent.
#[derive(Clone, Debug, PartialEq)]
pub struct View {
    pub tables: Tables,
    pub grant: Vec<u32>,
    pub membership: u32,
    pub rows: Vec<u32>,
    pub pos: Vec<u32>,
    pub osp: Vec<u32>,
}

/// What a served call answers: the words written to rows, POS and OSP.
pub type Written = (usize, usize, usize);

/// Whether a row is visible: its subject is granted, or some row of its year says that the subject belongs to something granted.
fn is_seen(rows: &[Row], grant: &[u32], membership: u32, row: &Row) -> bool {
    let admits = |other: &Row| other[..2] == row[..2] && other[2] == membership && grant.contains(&other[3]);
    grant.contains(&row[1]) || rows.iter().any(admits)
}

/// Of each row whether it is visible.
pub fn seen(rows: &[Row], grant: &[u32], membership: u32) -> Vec<bool> {
    rows.iter().map(|row| is_seen(rows, grant, membership, row)).collect()
}

/// The visible rows, in their order.
pub fn visible(tables: &Tables, grant: &[u32], membership: u32) -> Vec<Row> {
    let rows = tables.quads();
    let seen = seen(&rows, grant, membership);
    rows.iter().zip(seen).filter(|(_, seen)| *seen).map(|(&row, _)| row).collect()
}

/// Whether each row that stands in the first tables alone is hidden there.
pub fn hidden_alone(first: &Tables, second: &Tables, grant: &[u32], membership: u32) -> bool {
    let others = second.quads();
    visible(first, grant, membership).iter().all(|row| others.contains(row))
}

/// Test 20.
fn grant_right(grant: &[u32]) -> bool {
    grant.iter().all(|&word| term_kind(word) == NAME) && (1..grant.len()).all(|at| grant[at - 1] < grant[at])
}

fn written(buffer: &[u32], words: &[u32]) -> Vec<u32> {
    words.iter().chain(&buffer[words.len()..]).copied().collect()
}

/// The answer to a call, and its buffers at exit.
pub fn view(call: &View) -> (Result<Written, u32>, View) {
    if let Err(number) = call.tables.orders() {
        return (Err(number), call.clone());
    }
    if !grant_right(&call.grant) {
        return (Err(20), call.clone());
    }
    let Tables { rows, pos, osp } = Tables::of(visible(&call.tables, &call.grant, call.membership));
    let lengths = [(&call.rows, &rows), (&call.pos, &pos), (&call.osp, &osp)];
    if lengths.iter().any(|(buffer, words)| buffer.len() < words.len()) {
        return (Err(21), call.clone());
    }
    let at_exit = View {
        rows: written(&call.rows, &rows),
        pos: written(&call.pos, &pos),
        osp: written(&call.osp, &osp),
        ..call.clone()
    };
    (Ok((rows.len(), pos.len(), osp.len())), at_exit)
}
