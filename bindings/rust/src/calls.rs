//! The calls over slices, by the engine that the crate was built with: the portable one or the proved library.

use std::ops::Range;

use crate::engine::{self, Entry};
use crate::refusals::Refusal;
use crate::tables::{Survey, Tables};

/// The words that a state buffer has at least.
pub const STATE_WORDS: usize = 11;

/// The numbers that a survey may have: below this.
pub const SURVEYS: u32 = 1 << 28;

/// The last year that rows and plans may have; the first is 1.
pub const MOST_YEAR: u32 = 9_999;

/// The most steps that a turn may take.
pub const MOST_STEPS: u32 = 1_000_000;

/// The most rows of tables, and of an upload.
pub const MOST_ROWS: usize = 65_536;

/// The bytes of stack that [`make`] may use: it keeps there what it sorts. A thread of a program has 2 MiB by default; one that is given
/// less needs this much.
pub const MAKE_STACK: usize = 524_288;

/// The bytes of stack that [`view`] may use: it marks each row there.
pub const VIEW_STACK: usize = 393_216;

/// The most stems of a grown wood, which has two rows for each.
pub const MOST_STEMS: u32 = 32_768;

/// The bytes of stack that [`grow`] may use: it sorts there.
pub const GROW_STACK: usize = 196_608;

/// The most entries of a queue, in the line and set aside together; each of its two lists has room for so many.
pub const MOST_ENTRIES: usize = 32;

/// The words of a list of registers.
pub const REGISTERS: usize = 16;

/// The words of a report on registers: a count for each value from 0 to 61.
pub const REPORT_WORDS: usize = 62;

/// The most strings of a dictionary, and of one numbering: the number after the last is a term's value too.
pub const MOST_STRINGS: usize = 0x3FFF_FFFF;

/// How a turn ended.
#[derive(Clone, Copy, Debug, PartialEq, Eq, Hash)]
pub enum TurnEnding {
    /// The query has ended; no state is left.
    Done,
    /// It took exactly the quantum and is not done.
    Spent,
    /// The next step delivers a row or a new group for which the output has no space.
    Full,
}

/// What a served turn answers.
#[derive(Clone, Copy, Debug, PartialEq, Eq, Hash)]
pub struct Turned {
    /// The steps taken.
    pub steps: u32,
    /// How it ended.
    pub ending: TurnEnding,
    /// The words of the new state, written over the front of the state buffer; 0 when done.
    pub state_words: usize,
    /// The words of the turn's list, written over the front of the output.
    pub list_words: usize,
}

/// What making tables answers: the words written over the front of each buffer.
#[derive(Clone, Copy, Debug, PartialEq, Eq, Hash)]
pub struct Made {
    /// Four for each row that is kept.
    pub rows_words: usize,
    /// One for each row that is kept.
    pub pos_words: usize,
    /// The same.
    pub osp_words: usize,
    /// Two for each row that is dropped.
    pub report_words: usize,
}

/// What writing a view answers: the words written over the front of each buffer.
#[derive(Clone, Copy, Debug, PartialEq, Eq, Hash)]
pub struct Viewed {
    /// Three for each visible row.
    pub rows_words: usize,
    /// One for each visible row.
    pub pos_words: usize,
    /// The same.
    pub osp_words: usize,
}

/// What growing a wood answers: the words written over the front of each buffer.
#[derive(Clone, Copy, Debug, PartialEq, Eq, Hash)]
pub struct Grown {
    /// Eight for each stem.
    pub rows_words: usize,
    /// Two for each stem.
    pub pos_words: usize,
    /// The same.
    pub osp_words: usize,
}

/// What joining and topping up answer: how many entries each list has now.
#[derive(Clone, Copy, Debug, PartialEq, Eq, Hash)]
pub struct Queued {
    /// The entries of the line.
    pub line_entries: usize,
    /// The entries set aside.
    pub aside_entries: usize,
}

/// What serving answers.
#[derive(Clone, Copy, Debug, PartialEq, Eq, Hash)]
pub struct Served {
    /// What the turn of the front entry answered. Its new state is in the entry.
    pub turned: Turned,
    /// Whose turn it was.
    pub owner: u32,
    /// The steps left to the owner; what was left, where the query is done.
    pub left: u64,
    /// The entries of the line.
    pub line_entries: usize,
    /// The entries set aside.
    pub aside_entries: usize,
}

/// What the strings of a dictionary are. A name is an IRI: it is not empty and has none of the characters that one in <> may not have.
#[derive(Clone, Copy, Debug, PartialEq, Eq, Hash)]
pub enum StringKind {
    /// Names.
    Names,
    /// Texts.
    Texts,
}

impl StringKind {
    /// Its number, for the engine.
    fn number(self) -> u32 {
        match self {
            StringKind::Names => engine::NAMES,
            StringKind::Texts => engine::TEXTS,
        }
    }
}

/// What numbering strings answers: what is written over the front of each buffer.
#[derive(Clone, Copy, Debug, PartialEq, Eq, Hash)]
pub struct Numbered {
    /// The bytes of the dictionary.
    pub bytes: usize,
    /// Its strings: an end for each.
    pub strings: usize,
}

/// Where a string stands in a dictionary.
#[derive(Clone, Copy, Debug, PartialEq, Eq, Hash)]
pub enum Lookup {
    /// It is there, with this number.
    At(usize),
    /// It is not, and so many strings come before it.
    Absent(usize),
}

/// The refusal of a number that the library gave.
fn refusal(code: u32) -> Refusal {
    Refusal::from_code(code)
        .unwrap_or_else(|| panic!("the engine refused by {code}, which this crate does not know: they are of different versions"))
}

/// The answer of a call that writes to one buffer.
fn written(answer: engine::WrittenNumbers) -> Result<usize, Refusal> {
    match answer.refused {
        0 => Ok(answer.words),
        code => Err(refusal(code)),
    }
}

/// The answer of a turn.
fn turned(answer: engine::TurnedNumbers) -> Result<Turned, Refusal> {
    let ending = match answer.ending {
        engine::DONE => TurnEnding::Done,
        engine::SPENT => TurnEnding::Spent,
        engine::FULL => TurnEnding::Full,
        engine::REFUSED => return Err(refusal(answer.refused)),
        other => panic!("the engine gave the ending {other}, which this crate does not know: they are of different versions"),
    };
    Ok(Turned {
        steps: answer.steps,
        ending,
        state_words: answer.saved,
        list_words: answer.listed,
    })
}

/// Writes the start state of a query over the front of `state`, and gives the words written. Refused by 1, 2, 23, 3, 4, 5,
/// 6, 23, 7 and 22, tested in this order: 23 is for a row's year, and then for the plan's.
///
/// ```
/// use sotjarn::{open, Refusal, Tables};
///
/// let rows = [0x4000_07EA, 1, 10, 100]; // i2026 n1 n10 n100
/// let survey = Tables { rows: &rows, pos: &[0], osp: &[0] }.survey(7);
/// let plan = [0x1000_0001, 0x2000_0001, 0xC000_0000, 10, 100, 0x3000_0000, 0x8000_0001, 0xC000_0000];
/// let mut state = [0; 11];
/// assert_eq!(open(survey, &plan, &mut state), Ok(4));
/// assert_eq!(state[..4], [0xD000_0007, 2026, 0xE000_0001, 0xF000_0000]); // survey 7; 2026; branch 0, depth 1; place 0
/// assert_eq!(open(survey, &plan, &mut state[..10]), Err(Refusal::BufferLengths));
/// assert_eq!(open(survey.tables.survey(1 << 28), &plan, &mut state), Err(Refusal::Survey));
/// ```
pub fn open(survey: Survey, plan: &[u32], state: &mut [u32]) -> Result<usize, Refusal> {
    let Tables { rows, pos, osp } = survey.tables;
    written(engine::sotjarn_open(rows, pos, osp, survey.number, plan, state))
}

/// Runs at most `quantum` steps from the saved state, which is the first `state_words` words of `state`: those that opening or the
/// turn before wrote. `threshold` is empty, or for a best-of query the last row of a full list merged from earlier turns; matches that cannot come
/// before it are not finished, which may save steps.
/// Refused as an opening is by tables and plan, then by 7 to 11, with 22 after 9: a state goes on with the survey that it was saved under
/// alone, and with a year that is being read.
///
/// ```
/// use sotjarn::{open, turn, Refusal, Tables, TurnEnding};
///
/// let rows = [0x4000_07EA, 1, 10, 100]; // i2026 n1 n10 n100
/// let survey = Tables { rows: &rows, pos: &[0], osp: &[0] }.survey(7);
/// let plan = [0x1000_0001, 0x2000_0001, 0xC000_0000, 10, 100, 0x3000_0000, 0x8000_0001, 0xC000_0000];
/// let (mut state, mut output) = ([0; 11], [0; 1]);
/// let words = open(survey, &plan, &mut state)?;
/// let later = survey.tables.survey(8); // after the next upload
/// assert_eq!(turn(later, &plan, &mut state, words, 10, &[], &mut output), Err(Refusal::Survey));
/// let turned = turn(survey, &plan, &mut state, words, 10, &[], &mut output)?;
/// assert_eq!((turned.steps, turned.ending), (2, TurnEnding::Done));
/// assert_eq!(output[..turned.list_words], [1]);
/// # Ok::<(), Refusal>(())
/// ```
pub fn turn(
    survey: Survey,
    plan: &[u32],
    state: &mut [u32],
    state_words: usize,
    quantum: u32,
    threshold: &[u32],
    output: &mut [u32],
) -> Result<Turned, Refusal> {
    let Tables { rows, pos, osp } = survey.tables;
    turned(engine::sotjarn_turn(
        rows,
        pos,
        osp,
        survey.number,
        plan,
        state,
        state_words,
        quantum,
        threshold,
        output,
    ))
}

/// Merges a turn's whole list into the kept one, which is the first `kept_words` words of `kept`; none at first. The merged list is
/// written over the front of `kept`, and its words are the answer. For best-of queries, groups and registers; the lists of a row query
/// are joined end to end instead. Refused by 5, 6, 23 and 12 to 14.
///
/// ```
/// use sotjarn::{merge, Refusal};
///
/// // ?0 n10 ?1, the best 1 of ?1 by ?1 falling
/// let plan = [
///     0x1000_0001, 0x2000_0001, 0xC000_0000, 10, 0xC000_0001, 0x3000_0000,
///     0x9000_0001, 0x8000_0001, 0xC000_0001, 0xB000_0001,
/// ];
/// let mut kept = [0x4000_0005, 0]; // i5 is kept; the second word is spare
/// assert_eq!(merge(&plan, &mut kept, 1, &[0x4000_0007]), Ok(1));
/// assert_eq!(kept, [0x4000_0007, 0]);
/// assert_eq!(merge(&plan, &mut kept, 1, &[7, 8]), Err(Refusal::MergedLists));
/// ```
pub fn merge(plan: &[u32], kept: &mut [u32], kept_words: usize, list: &[u32]) -> Result<usize, Refusal> {
    written(engine::sotjarn_merge(plan, kept, kept_words, list))
}

/// Counts a kept list of registers, which is the first `kept_words` words of `kept`; none at first, and then all 16 have 0. Word v of the
/// report, from 0 to 61, is how many registers have the value v; they make 16. Its words, [`REPORT_WORDS`], are the answer;
/// [`estimate`](crate::estimate) tells from them roughly how many distinct values there were. Refused by 7 and 12.
///
/// ```
/// use sotjarn::{report, Refusal, REPORT_WORDS};
///
/// let kept = [0, 0, 3, 0, 1, 0, 0, 0, 0, 0, 0, 1, 0, 0, 0, 0];
/// let mut counts = [0; REPORT_WORDS];
/// assert_eq!(report(&kept, 16, &mut counts), Ok(62));
/// assert_eq!(counts[..4], [13, 2, 0, 1]);
/// assert_eq!(counts[4..].iter().sum::<u32>(), 0);
/// assert_eq!(report(&kept, 0, &mut counts), Ok(62)); // nothing is merged yet
/// assert_eq!(counts[..2], [16, 0]);
/// assert_eq!(report(&kept, 15, &mut counts), Err(Refusal::MergedLists));
/// assert_eq!(report(&kept, 16, &mut counts[1..]), Err(Refusal::BufferLengths));
/// ```
pub fn report(kept: &[u32], kept_words: usize, report: &mut [u32]) -> Result<usize, Refusal> {
    written(engine::sotjarn_report(kept, kept_words, report))
}

/// The words that test 7 asks of an output for a plan: one row, k rows, one group or all registers. Refused by 5, 6 and 23.
///
/// ```
/// use sotjarn::{least_output, Refusal};
///
/// // ?0 n10 ?1, the best 10 of ?0 ?1 by ?1 falling
/// let plan = [
///     0x1000_0001, 0x2000_0001, 0xC000_0000, 10, 0xC000_0001, 0x3000_0000,
///     0x9000_000A, 0x8000_0002, 0xC000_0000, 0xC000_0001, 0xB000_0001,
/// ];
/// assert_eq!(least_output(&plan), Ok(20));
/// assert_eq!(least_output(&plan[..10]), Err(Refusal::PlanForm));
/// ```
pub fn least_output(plan: &[u32]) -> Result<usize, Refusal> {
    written(engine::sotjarn_least_output(plan))
}

/// Makes tables from an upload, rows of four words in any order, and a report of the rows that were dropped. Rows of wrong kinds or years are
/// dropped, and of equal rows all but the first; the others are written over the front of `rows`, in ascending order, and their row numbers
/// over the front of `pos` and `osp`. The report has two words for each dropped row, in upload order: its place from 0, and 1 for a wrong
/// kind or year, tested first, or 2 for a repeat; [`read_report`](crate::read_report) reads it. Buffers of exactly the words written are enough.
/// Refused by 15 and 16. It needs [`MAKE_STACK`] bytes of stack.
///
/// ```
/// use sotjarn::{make, Made, Refusal};
///
/// let (first, second) = ([0x4000_07EA, 2, 10, 100], [0x4000_07EA, 1, 10, 100]); // i2026 n2 n10 n100, i2026 n1 n10 n100
/// let upload = [first, second, first].concat();
/// let (mut rows, mut pos, mut osp, mut report) = ([0; 8], [0; 2], [0; 2], [0; 2]);
/// let made = make(&upload, &mut rows, &mut pos, &mut osp, &mut report)?;
/// assert_eq!(made, Made { rows_words: 8, pos_words: 2, osp_words: 2, report_words: 2 });
/// assert_eq!((rows[..4] == second, rows[4..] == first, pos, osp), (true, true, [0, 1], [0, 1]));
/// assert_eq!(report, [2, 2]); // the row at 2 is a repeat
/// assert_eq!(make(&upload[1..], &mut rows, &mut pos, &mut osp, &mut report), Err(Refusal::UploadLength));
/// assert_eq!(make(&upload, &mut rows, &mut pos, &mut osp, &mut []), Err(Refusal::MadeLengths));
/// # Ok::<(), Refusal>(())
/// ```
pub fn make(upload: &[u32], rows: &mut [u32], pos: &mut [u32], osp: &mut [u32], report: &mut [u32]) -> Result<Made, Refusal> {
    let answer = engine::sotjarn_make(upload, rows, pos, osp, report);
    match answer.refused {
        0 => Ok(Made {
            rows_words: answer.rows,
            pos_words: answer.pos,
            osp_words: answer.osp,
            report_words: answer.report,
        }),
        code => Err(refusal(code)),
    }
}

/// Writes the tables of the rows that an adviser may see over the front of `rows`, `pos` and `osp`. The grant has names in strictly ascending
/// order, or none. A row is visible if its subject is granted, or if some row of the same year and subject has `membership` as predicate and a
/// granted object. Visible rows keep their order and are numbered from 0; the adviser's queries run on these tables. Buffers of exactly the words
/// written are enough. Refused by 1, 2, 23, 3, 4, 20 and 21. It needs [`VIEW_STACK`] bytes of stack.
/// [`TableWords::view`](crate::TableWords::view) has buffers of its own.
///
/// ```
/// use sotjarn::{view, Refusal, Tables, Viewed};
///
/// // i2026 and: n1 n10 n100, n2 n10 n101, n2 n12 i310
/// let rows = [0x4000_07EA, 1, 10, 100, 0x4000_07EA, 2, 10, 101, 0x4000_07EA, 2, 12, 0x4000_0136];
/// let tables = Tables { rows: &rows, pos: &[0, 1, 2], osp: &[0, 1, 2] };
/// let (mut seen, mut pos, mut osp) = ([0; 8], [0; 2], [0; 2]);
/// let viewed = view(tables, &[101], 10, &mut seen, &mut pos, &mut osp)?; // what belongs, by n10, to n101
/// assert_eq!(viewed, Viewed { rows_words: 8, pos_words: 2, osp_words: 2 });
/// assert_eq!((&seen[..], pos, osp), (&rows[4..], [0, 1], [0, 1]));
/// assert_eq!(view(tables, &[101, 100], 10, &mut seen, &mut pos, &mut osp), Err(Refusal::Grant));
/// assert_eq!(view(tables, &[100, 101], 10, &mut seen, &mut pos, &mut osp), Err(Refusal::ViewLengths)); // three rows are visible
/// # Ok::<(), Refusal>(())
/// ```
pub fn view(
    tables: Tables,
    grant: &[u32],
    membership: u32,
    rows: &mut [u32],
    pos: &mut [u32],
    osp: &mut [u32],
) -> Result<Viewed, Refusal> {
    let answer = engine::sotjarn_view(tables.rows, tables.pos, tables.osp, grant, membership, rows, pos, osp);
    match answer.refused {
        0 => Ok(Viewed {
            rows_words: answer.rows,
            pos_words: answer.pos,
            osp_words: answer.osp,
        }),
        code => Err(refusal(code)),
    }
}

/// Writes a wood made to measure over the front of `rows`, `pos` and `osp`: so many stems of a year, drawn from a seed. Stem j, from 0, is
/// n(1000000 + j), with a stand by n10, n100 to n119, and a diameter by n12, i20 to i619. The tables depend on these three numbers alone, so that
/// anyone grows the same wood again. Of n stems 8 n, 2 n and 2 n words are written, and buffers of exactly so many are enough. Refused by 24
/// (more than [`MOST_STEMS`], or a year outside 1 to [`MOST_YEAR`]) and 25. It needs [`GROW_STACK`] bytes of stack.
/// [`TableWords::grow`](crate::TableWords::grow) has buffers of its own.
///
/// ```
/// use sotjarn::{grow, Grown, Refusal};
///
/// let (mut rows, mut pos, mut osp) = ([0; 16], [0; 4], [0; 4]);
/// let grown = grow(1, 2, 2026, &mut rows, &mut pos, &mut osp)?;
/// assert_eq!(grown, Grown { rows_words: 16, pos_words: 4, osp_words: 4 });
/// assert_eq!(rows[..8], [0x4000_07EA, 1_000_000, 10, 116, 0x4000_07EA, 1_000_000, 12, 0x4000_00DC]); // i220
/// assert_eq!(rows[8..], [0x4000_07EA, 1_000_001, 10, 106, 0x4000_07EA, 1_000_001, 12, 0x4000_0267]); // i615
/// assert_eq!((pos, osp), ([2, 0, 1, 3], [2, 0, 1, 3]));
/// assert_eq!(grow(1, 32_769, 2026, &mut rows, &mut pos, &mut osp), Err(Refusal::Stems));
/// assert_eq!(grow(1, 2, 10_000, &mut rows, &mut pos, &mut osp), Err(Refusal::Stems));
/// assert_eq!(grow(1, 2, 2026, &mut rows[1..], &mut pos, &mut osp), Err(Refusal::GrownLengths));
/// # Ok::<(), Refusal>(())
/// ```
pub fn grow(seed: u32, stems: u32, year: u32, rows: &mut [u32], pos: &mut [u32], osp: &mut [u32]) -> Result<Grown, Refusal> {
    let answer = engine::sotjarn_grow(seed, stems, year, rows, pos, osp);
    match answer.refused {
        0 => Ok(Grown {
            rows_words: answer.rows,
            pos_words: answer.pos,
            osp_words: answer.osp,
        }),
        code => Err(refusal(code)),
    }
}

/// The answer of joining or topping up.
fn queued(answer: engine::QueuedNumbers) -> Result<Queued, Refusal> {
    match answer.refused {
        0 => Ok(Queued {
            line_entries: answer.waiting,
            aside_entries: answer.resting,
        }),
        code => Err(refusal(code)),
    }
}

/// An owner's query joins a queue over this survey: with steps at the end of the line, without at the end of the list set aside. The
/// line is the first `line_entries` entries of `line`, the list set aside the first `aside_entries` of `aside`; both buffers have
/// [`MOST_ENTRIES`] or more. `plan` and `state` are whole: those that a turn would accept. Refused by 1, 2, 23, 3, 4, 5, 6, 23, 9, 22, 10, 17 and 18.
/// [`Queue`](crate::Queue) holds both lists.
///
/// ```
/// use sotjarn::{join, open, Queued, Refusal, Tables, MOST_ENTRIES, NO_ENTRY};
///
/// let rows = [0x4000_07EA, 1, 10, 100]; // i2026 n1 n10 n100
/// let survey = Tables { rows: &rows, pos: &[0], osp: &[0] }.survey(7);
/// let plan = [0x1000_0001, 0x2000_0001, 0xC000_0000, 10, 100, 0x3000_0000, 0x8000_0001, 0xC000_0000];
/// let mut state = [0; 11];
/// let words = open(survey, &plan, &mut state)?;
/// let (mut line, mut aside) = ([NO_ENTRY; MOST_ENTRIES], [NO_ENTRY; MOST_ENTRIES]);
/// let queued = join(survey, &mut line, 0, &mut aside, 0, 7, 100, &plan, &state[..words])?;
/// assert_eq!(queued, Queued { line_entries: 1, aside_entries: 0 });
/// let again = join(survey, &mut line, 1, &mut aside, 0, 7, 100, &plan, &state[..words]);
/// assert_eq!(again, Err(Refusal::Entries)); // owner 7 has an entry
/// # Ok::<(), Refusal>(())
/// ```
#[allow(clippy::too_many_arguments)]
pub fn join(
    survey: Survey,
    line: &mut [Entry],
    line_entries: usize,
    aside: &mut [Entry],
    aside_entries: usize,
    owner: u32,
    allowance: u64,
    plan: &[u32],
    state: &[u32],
) -> Result<Queued, Refusal> {
    let Tables { rows, pos, osp } = survey.tables;
    queued(engine::sotjarn_join(
        rows,
        pos,
        osp,
        survey.number,
        line,
        line_entries,
        aside,
        aside_entries,
        owner,
        allowance,
        plan,
        state,
    ))
}

/// Runs a turn of the query at the front of the line, for at most `quantum` steps and at most those left to it. Done, it leaves; else it
/// goes to the back of the line, or to the end of the list set aside where no steps are left. Its list is written over the front of
/// `output`, its new state in its entry. Refused as a turn is on the front entry and the call, then by 17, 18 and 19; with an
/// empty line by 1, 2, 23, 3, 4, 8, 22, 17, 18 and 19.
#[allow(clippy::too_many_arguments)]
pub fn serve(
    survey: Survey,
    line: &mut [Entry],
    line_entries: usize,
    aside: &mut [Entry],
    aside_entries: usize,
    quantum: u32,
    threshold: &[u32],
    output: &mut [u32],
) -> Result<Served, Refusal> {
    let Tables { rows, pos, osp } = survey.tables;
    let answer = engine::sotjarn_serve(
        rows,
        pos,
        osp,
        survey.number,
        line,
        line_entries,
        aside,
        aside_entries,
        quantum,
        threshold,
        output,
    );
    let turned = turned(engine::TurnedNumbers {
        ending: answer.ending,
        refused: answer.refused,
        steps: answer.steps,
        saved: answer.saved,
        listed: answer.listed,
    })?;
    Ok(Served {
        turned,
        owner: answer.owner,
        left: answer.left,
        line_entries: answer.waiting,
        aside_entries: answer.resting,
    })
}

/// Brings the query of an owner who is set aside back to the end of the line, with so many steps. Refused by 17 and 18.
pub fn top_up(
    line: &mut [Entry],
    line_entries: usize,
    aside: &mut [Entry],
    aside_entries: usize,
    owner: u32,
    amount: u64,
) -> Result<Queued, Refusal> {
    queued(engine::sotjarn_top_up(
        line,
        line_entries,
        aside,
        aside_entries,
        owner,
        amount,
    ))
}

/// Numbers strings of a kind, which come in any order and as often as they like: string i is the bytes from `ends[i - 1]`, 0 for the first, up to
/// `ends[i]`. Writes a dictionary of exactly these strings, each once and ascending, over the front of `out` and `cuts`, and over that of `numbers`
/// the number of each string given. `places` is room to sort in. For b bytes and n strings b bytes and n words each are enough. Refused by
/// 26 and 27. [`NumberedStrings`](crate::NumberedStrings) has buffers of its own.
///
/// ```
/// use sotjarn::{number, Numbered, Refusal, StringKind::Texts};
///
/// let (bytes, ends) = (b"oakashoak", [3, 6, 9]); // oak, ash, oak
/// let (mut out, mut cuts, mut numbers, mut places) = ([0; 9], [0; 3], [0; 3], [0; 3]);
/// let numbered = number(Texts, bytes, &ends, &mut out, &mut cuts, &mut numbers, &mut places)?;
/// assert_eq!(numbered, Numbered { bytes: 6, strings: 2 });
/// assert_eq!((&out[..6], &cuts[..2]), (&b"ashoak"[..], &[3, 6][..]));
/// assert_eq!(numbers, [1, 0, 1]);
/// let falling = number(Texts, bytes, &[6, 3, 9], &mut out, &mut cuts, &mut numbers, &mut places);
/// assert_eq!(falling, Err(Refusal::Strings));
/// assert_eq!(number(Texts, bytes, &ends, &mut out, &mut cuts, &mut numbers, &mut []), Err(Refusal::NumberedLengths));
/// # Ok::<(), Refusal>(())
/// ```
pub fn number(
    kind: StringKind,
    bytes: &[u8],
    ends: &[u32],
    out: &mut [u8],
    cuts: &mut [u32],
    numbers: &mut [u32],
    places: &mut [u32],
) -> Result<Numbered, Refusal> {
    let answer = engine::sotjarn_number(kind.number(), bytes, ends, out, cuts, numbers, places);
    match answer.refused {
        0 => Ok(Numbered {
            bytes: answer.bytes,
            strings: answer.strings,
        }),
        code => Err(refusal(code)),
    }
}

/// Looks for a string, which may be any bytes, in a dictionary of a kind. Refused by 28: the whole dictionary is tested at each call.
/// [`Dictionary::find`](crate::Dictionary::find) is for one that was tested before.
///
/// ```
/// use sotjarn::{find, Lookup, Refusal, StringKind::{Names, Texts}};
///
/// let (bytes, ends) = (b"ashoak", [3, 6]);
/// assert_eq!(find(Texts, bytes, &ends, b"oak"), Ok(Lookup::At(1)));
/// assert_eq!(find(Texts, bytes, &ends, b"elm"), Ok(Lookup::Absent(1))); // one comes before it
/// assert_eq!(find(Texts, bytes, &[3, 7], b"oak"), Err(Refusal::Dictionary));
/// assert_eq!(find(Names, b"a b", &[3], b""), Err(Refusal::Dictionary)); // no name has a blank
/// ```
pub fn find(kind: StringKind, bytes: &[u8], ends: &[u32], sought: &[u8]) -> Result<Lookup, Refusal> {
    let answer = engine::sotjarn_find(kind.number(), bytes, ends, sought);
    match (answer.refused, answer.present) {
        (0, engine::PRESENT) => Ok(Lookup::At(answer.number)),
        (0, _) => Ok(Lookup::Absent(answer.number)),
        (code, _) => Err(refusal(code)),
    }
}

/// Where the string of a number stands in the bytes of a dictionary of a kind; none for a number past the last. Refused by 28: the whole dictionary
/// is tested at each call. [`Dictionary::string`](crate::Dictionary::string) is for one that was tested before.
///
/// ```
/// use sotjarn::{string, Refusal, StringKind::Texts};
///
/// let (bytes, ends) = (b"ashoak", [3, 6]);
/// assert_eq!(string(Texts, bytes, &ends, 1), Ok(Some(3..6)));
/// assert_eq!(string(Texts, bytes, &ends, 2), Ok(None));
/// assert_eq!(string(Texts, b"oakash", &ends, 1), Err(Refusal::Dictionary));
/// ```
pub fn string(kind: StringKind, bytes: &[u8], ends: &[u32], number: usize) -> Result<Option<Range<usize>>, Refusal> {
    let answer = engine::sotjarn_string(kind.number(), bytes, ends, number);
    match (answer.refused, answer.present) {
        (0, engine::PRESENT) => Ok(Some(answer.start..answer.end)),
        (0, _) => Ok(None),
        (code, _) => Err(refusal(code)),
    }
}
