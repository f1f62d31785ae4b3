//! Making tables from an upload, as plainly as the rules say it: each row is judged by looking at all rows before it.

use super::tables::{kinds_right, year_right, Row, Tables};

/// A call of making tables: the upload, and the four buffers as they are lent.
#[derive(Clone, Debug, PartialEq)]
pub struct Make {
    pub upload: Vec<u32>,
    pub rows: Vec<u32>,
    pub pos: Vec<u32>,
    pub osp: Vec<u32>,
    pub report: Vec<u32>,
}

/// What a served call answers: the words written to rows, POS, OSP and report.
pub type Written = (usize, usize, usize, usize);

/// What happens to a row of an upload.
#[derive(Clone, Copy, Debug, PartialEq)]
pub enum Fate {
    Kept,
    WrongKind,
    Repeat,
}

/// The rows of an upload, and the words that are left over.
pub fn rows_of(upload: &[u32]) -> (Vec<Row>, usize) {
    let rows = upload.chunks_exact(4).map(|row| [row[0], row[1], row[2], row[3]]).collect();
    (rows, upload.len() % 4)
}

/// The fate of each row: kinds first, then whether an earlier row is the same.
pub fn fates(rows: &[Row]) -> Vec<Fate> {
    let fate = |place: usize| match rows[place] {
        row if !kinds_right(&row) || !year_right(&row) => Fate::WrongKind,
        row if rows[..place].contains(&row) => Fate::Repeat,
        _ => Fate::Kept,
    };
    (0..rows.len()).map(fate).collect()
}

/// The report: place and code of each dropped row, in upload order.
fn report(fates: &[Fate]) -> Vec<u32> {
    let part = |(place, fate): (usize, &Fate)| match fate {
        Fate::Kept => vec![],
        Fate::WrongKind => vec![place as u32, 1],
        Fate::Repeat => vec![place as u32, 2],
    };
    fates.iter().enumerate().flat_map(part).collect()
}

/// The tables and the report of an upload of whole rows, whatever their number.
pub fn made(upload: &[u32]) -> (Tables, Vec<u32>) {
    let (rows, _) = rows_of(upload);
    let fates = fates(&rows);
    let kept = rows
        .iter()
        .zip(&fates)
        .filter(|(_, &fate)| fate == Fate::Kept)
        .map(|(&row, _)| row);
    (Tables::of(kept.collect()), report(&fates))
}

fn written(buffer: &[u32], words: &[u32]) -> Vec<u32> {
    words.iter().chain(&buffer[words.len()..]).copied().collect()
}

/// The answer to a call, and its buffers at exit.
pub fn make(call: &Make) -> (Result<Written, u32>, Make) {
    if call.upload.len() % 4 != 0 || call.upload.len() / 4 > 65_536 {
        return (Err(15), call.clone());
    }
    let (Tables { rows, pos, osp }, report) = made(&call.upload);
    let lengths = [
        (&call.rows, &rows),
        (&call.pos, &pos),
        (&call.osp, &osp),
        (&call.report, &report),
    ];
    if lengths.iter().any(|(buffer, words)| buffer.len() < words.len()) {
        return (Err(16), call.clone());
    }
    let at_exit = Make {
        upload: call.upload.clone(),
        rows: written(&call.rows, &rows),
        pos: written(&call.pos, &pos),
        osp: written(&call.osp, &osp),
        report: written(&call.report, &report),
    };
    (Ok((rows.len(), pos.len(), osp.len(), report.len())), at_exit)
}
