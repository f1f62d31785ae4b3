//! Writes the test vectors: calls and histories with the proved library's answers, in the form that tests/vectors/README.md describes.

use std::fs;

use crate::comparing::{damaged, grown, made_up, queued, reported, uploaded, viewed};
use crate::evaluation::calls::{Merge, Open, Query, Turn};
use crate::evaluation::growing::Grow;
use crate::evaluation::plan::{Branch, Condition, Ending, Plan};
use crate::evaluation::queues::{Join, Lists, Serve, TopUp, Waiting, PLAN_ROOM, STATE_ROOM};
use crate::evaluation::registers::Report;
use crate::evaluation::tables::Tables;
use crate::evaluation::uploads::Make;
use crate::evaluation::views::View;
use crate::evaluation::words::*;
use crate::histories::{self, Calls};
use crate::inputs::plans;
use crate::inputs::random::Random;
use crate::lending::{self, MadeOfLists};
use crate::libraries::{Bounds, Found, Library, Made, Numbered, Queued, Service, Turned, Viewed, Written};
use crate::strings::{many, numbered, Find, Number, StringOf};

/// How many queries there are, each with damaged calls, made-up ones and a history, and how many more whose conditions keep no row.
const QUERIES: u64 = 80;
const FELLED: u64 = 12;
/// The most rows of a query's tables, steps of its run, and turns of its history.
const ROWS: usize = 12;
const STEPS: usize = 300;
const TURNS: usize = 8;

// The instructions.
const SET: u32 = 1;
const FILL: u32 = 2;
const STEMS: u32 = 3;
const OPEN: u32 = 4;
const TURN: u32 = 5;
const MERGE: u32 = 6;
const MAKE: u32 = 7;
const SHUFFLED: u32 = 8;
const MAKE_STEMS: u32 = 9;
const ENTRIES: u32 = 10;
const JOIN: u32 = 11;
const SERVE: u32 = 12;
const TOP_UP: u32 = 13;
const VIEW: u32 = 14;
const VIEW_ALL: u32 = 15;
const GROW: u32 = 16;
const REPORT: u32 = 17;
const BYTES: u32 = 18;
const FILL_BYTES: u32 = 19;
const NUMBER: u32 = 20;
const FIND: u32 = 21;
const STRING: u32 = 22;

/// How many small uploads there are, and the most rows of one.
const UPLOADS: u64 = 60;
const UPLOADED: usize = 14;

/// How many small woods are viewed, and the most rows of one.
const VIEWS: u64 = 60;
const VIEWED: usize = 12;

/// How many small woods are grown, and the most stems of one.
const GROWN: u64 = 40;
const GROWN_STEMS: u32 = 12;

/// How often two reports on registers are asked for.
const REPORTS: u64 = 30;

/// How many small numberings of strings there are, and the most strings of one; and how many strings one large numbering has, each twice.
const NUMBERINGS: u64 = 90;
const NUMBERED: usize = 14;
const MANY: u32 = 300;

/// How many small queues there are, and the most entries of one; and how many as large as they may be.
const QUEUES: u64 = 45;
const QUEUED: usize = 5;
const LARGE_QUEUES: u64 = 2;
const LARGEST: usize = 32;

/// The buffers, by their numbers in the file. Between them stand the line and the list set aside, of entries.
#[derive(Clone, Copy)]
enum Name {
    Rows,
    Pos,
    Osp,
    Plan,
    State,
    Threshold,
    Output,
    Kept,
    List,
    Upload,
    Report,
    Grant = 13,
    SeenRows,
    SeenPos,
    SeenOsp,
    Strings,
    Ends,
    Out,
    Cuts,
    Numbers,
    Places,
    Sought,
}

/// How many buffers there are, both lists included.
const BUFFERS: usize = 24;

/// The numbers of both lists.
const LINE: usize = 11;
const ASIDE: usize = 12;

/// The buffers that a view and a grown wood are written to.
const SEEN: [Name; 3] = [Name::SeenRows, Name::SeenPos, Name::SeenOsp];

/// The buffers of words that numbering writes to.
const WRITTEN: [Name; 3] = [Name::Cuts, Name::Numbers, Name::Places];

/// An entry of zeros.
fn nobody() -> Waiting {
    Waiting {
        allowance: 0,
        owner: 0,
        planned: 0,
        saved: 0,
        plan: vec![0; PLAN_ROOM],
        state: vec![0; STATE_ROOM],
    }
}

/// A number of 64 bits in two words, the low one first.
fn two_words(number: u64) -> [u32; 2] {
    [number as u32, (number >> 32) as u32]
}

/// So many words, less the zeros at their end, with their number before them.
fn shortened(words: &[u32]) -> Vec<u32> {
    let many = words.iter().rposition(|&word| word != 0).map_or(0, |last| last + 1);
    [many as u32].into_iter().chain(words[..many].iter().copied()).collect()
}

/// An entry as the file has it.
fn entry_words(entry: &Waiting) -> Vec<u32> {
    let numbers = [entry.owner, entry.planned, entry.saved];
    [
        &two_words(entry.allowance)[..],
        &numbers,
        &shortened(&entry.plan),
        &shortened(&entry.state),
    ]
    .concat()
}

/// Lists that take few words of the file: behind the entries, and behind plans and states, there are zeros; and so there are in the arrays of an
/// entry that no query made.
fn plain(lists: &Lists) -> Lists {
    let zeroed = |words: &[u32], many: usize| {
        let mut words = words.to_vec();
        words.iter_mut().skip(many).for_each(|word| *word = 0);
        words
    };
    let entry = |entry: &Waiting| {
        let is_query = kind(entry.plan[0]) == HEAD || kind(entry.plan[0]) == YEAR && kind(entry.plan[1]) == HEAD;
        Waiting {
            plan: zeroed(&entry.plan, if is_query { entry.planned as usize } else { 0 }),
            state: zeroed(&entry.state, if is_query { entry.saved as usize } else { 0 }),
            ..entry.clone()
        }
    };
    let list = |entries: &[Waiting], many: usize| {
        let place = |(place, known): (usize, &Waiting)| if place < many { entry(known) } else { nobody() };
        entries.iter().enumerate().map(place).collect()
    };
    Lists {
        line: list(&lists.line, lists.waiting),
        aside: list(&lists.aside, lists.resting),
        ..*lists
    }
}

/// The words of a filled buffer.
fn filled(many: usize) -> Vec<u32> {
    (1..=many as u32).map(|at| at.wrapping_mul(0x9E37_79B9)).collect()
}

/// The bytes of a filled buffer.
fn filled_bytes(many: usize) -> Vec<u8> {
    (1..=many as u32).map(|at| at.wrapping_mul(0x9D) as u8).collect()
}

/// Bytes in words, four to a word, the low byte first.
fn packed(bytes: &[u8]) -> Vec<u32> {
    let word = |bytes: &[u8]| bytes.iter().rev().fold(0, |word, &byte| word << 8 | u32::from(byte));
    bytes.chunks(4).map(word).collect()
}

/// The year of the stems.
const STEMS_YEAR: i32 = 2026;

/// Tables by a rule: so many stems of one stand.
fn stems(many: u32) -> Tables {
    let numbers: Vec<u32> = (0..many).collect();
    let rows = numbers
        .iter()
        .flat_map(|&stem| [number(STEMS_YEAR), name(stem), name(10), name(100)])
        .collect();
    Tables {
        rows,
        pos: numbers.clone(),
        osp: numbers,
    }
}

/// The stems by the same rule as an upload, in another order: one that visits each once.
fn shuffled(many: u32) -> Vec<u32> {
    (0..u64::from(many))
        .flat_map(|at| {
            let stem = (at * 40_507 % u64::from(many)) as u32;
            [number(STEMS_YEAR), name(stem), name(10), name(100)]
        })
        .collect()
}

/// The vectors that are being written: what the buffers hold by now, and the words of the file.
struct Vectors {
    proved: Library,
    held: [Vec<u32>; BUFFERS],
    bytes: [Vec<u8>; BUFFERS],
    lists: [Vec<Waiting>; 2],
    words: Vec<u32>,
    calls: u32,
}

impl Vectors {
    /// Has a buffer hold these words.
    fn lend(&mut self, buffer: Name, words: &[u32]) {
        if self.held[buffer as usize] == words {
            return;
        }
        let (number, many) = (buffer as u32, words.len() as u32);
        if many > 0 && words == filled(words.len()) {
            self.words.extend([FILL, number, many]);
        } else {
            self.words.extend([SET, number, many]);
            self.words.extend(words);
        }
        self.held[buffer as usize] = words.to_vec();
    }

    /// Has a buffer hold these bytes.
    fn lend_bytes(&mut self, buffer: Name, bytes: &[u8]) {
        if self.bytes[buffer as usize] == bytes {
            return;
        }
        let (number, many) = (buffer as u32, bytes.len() as u32);
        if many > 0 && bytes == filled_bytes(bytes.len()) {
            self.words.extend([FILL_BYTES, number, many]);
        } else {
            self.words.extend([BYTES, number, many]);
            self.words.extend(packed(bytes));
        }
        self.bytes[buffer as usize] = bytes.to_vec();
    }

    fn lend_tables(&mut self, tables: &Tables) {
        self.lend(Name::Rows, &tables.rows);
        self.lend(Name::Pos, &tables.pos);
        self.lend(Name::Osp, &tables.osp);
    }

    /// Has the tables hold so many stems.
    fn lend_stems(&mut self, many: u32) -> Tables {
        let tables = stems(many);
        self.words.extend([STEMS, many]);
        self.held[Name::Rows as usize] = tables.rows.clone();
        self.held[Name::Pos as usize] = tables.pos.clone();
        self.held[Name::Osp as usize] = tables.osp.clone();
        tables
    }

    /// Has the upload hold so many stems, shuffled.
    fn lend_shuffled(&mut self, many: u32) {
        self.words.extend([SHUFFLED, many]);
        self.held[Name::Upload as usize] = shuffled(many);
    }

    /// Makes tables of the upload of so many stems that is lent, in buffers that are longer by one word, and asks for those of the rule.
    fn make_stems(&mut self, many: u32) {
        let rows = many as usize;
        let call = Make {
            upload: shuffled(many),
            rows: filled(4 * rows + 1),
            pos: filled(rows + 1),
            osp: filled(rows + 1),
            report: filled(1),
        };
        let (made, right) = (lending::make(&self.proved, &call), stems(many));
        assert!(
            made.answer.refused == 0 && made.answer.report_words == 0,
            "the stems are kept"
        );
        for (at, words) in [&right.rows, &right.pos, &right.osp].into_iter().enumerate() {
            assert!(
                made.at_exit(at)[..words.len()] == words[..],
                "the tables are those of the rule"
            );
        }
        self.lend_buffers(&call);
        self.words.extend([MAKE_STEMS, many]);
        self.held_after(&made);
        self.calls += 1;
    }

    fn lend_buffers(&mut self, call: &Make) {
        self.lend(Name::Rows, &call.rows);
        self.lend(Name::Pos, &call.pos);
        self.lend(Name::Osp, &call.osp);
        self.lend(Name::Report, &call.report);
    }

    /// The buffers after tables were made.
    fn held_after(&mut self, made: &lending::Made<Made>) {
        for (at, buffer) in [Name::Rows, Name::Pos, Name::Osp, Name::Report].into_iter().enumerate() {
            self.held[buffer as usize] = made.at_exit(at).to_vec();
        }
    }

    /// Lends all of a view's buffers.
    fn lend_view(&mut self, call: &View) {
        self.lend_tables(&call.tables);
        self.lend(Name::Grant, &call.grant);
        for (buffer, words) in SEEN.into_iter().zip([&call.rows, &call.pos, &call.osp]) {
            self.lend(buffer, words);
        }
    }

    /// Writes the view of the stems that are lent, so many, for the stand that all of them have, and asks for the tables themselves.
    fn view_all(&mut self, many: u32) {
        let (tables, rows) = (stems(many), many as usize);
        let call = View {
            grant: vec![name(100)],
            membership: name(10),
            rows: filled(4 * rows + 1),
            pos: filled(rows + 1),
            osp: filled(rows),
            tables,
        };
        let made = lending::view(&self.proved, &call);
        assert!(made.answer.refused == 0, "the view is written");
        for (at, words) in [&call.tables.rows, &call.tables.pos, &call.tables.osp]
            .into_iter()
            .enumerate()
        {
            assert!(made.at_exit(at)[..words.len()] == words[..], "all rows are visible");
        }
        self.lend_view(&call);
        self.words.extend([VIEW_ALL, call.membership]);
        for (at, buffer) in SEEN.into_iter().enumerate() {
            self.held[buffer as usize] = made.at_exit(at).to_vec();
        }
        self.calls += 1;
    }

    /// Has both lists hold these entries.
    fn lend_lists(&mut self, lists: &Lists) {
        for (number, entries) in [&lists.line, &lists.aside].into_iter().enumerate() {
            if self.lists[number] != *entries {
                let many = entries
                    .iter()
                    .rposition(|entry| *entry != nobody())
                    .map_or(0, |last| last + 1);
                self.words
                    .extend([ENTRIES, (LINE + number) as u32, entries.len() as u32, many as u32]);
                entries[..many].iter().for_each(|entry| self.words.extend(entry_words(entry)));
                self.lists[number] = entries.clone();
            }
        }
    }

    /// The entries that a call changed, each with its list and place.
    fn changed<T>(&mut self, made: &MadeOfLists<T>) {
        let mut changed = Vec::new();
        for (number, entries) in [(LINE, &made.line), (ASIDE, &made.aside)] {
            for (place, entry) in entries.iter().enumerate() {
                if self.lists[number - LINE][place] != *entry {
                    changed.push([vec![number as u32, place as u32], entry_words(entry)].concat());
                }
            }
            self.lists[number - LINE] = entries.clone();
        }
        self.words.push(changed.len() as u32);
        self.words.extend(changed.concat());
        self.calls += 1;
    }

    /// A buffer after a call that wrote so many words to its front.
    fn written(&mut self, buffer: Name, words: &[u32], many: usize) {
        self.words.extend(&words[..many]);
        self.held[buffer as usize] = words.to_vec();
    }
}

/// A number of words as the file has it: the largest of a machine is that of 32 bits.
fn given_word(given: usize) -> u32 {
    u32::try_from(given).unwrap_or(u32::MAX)
}

impl Calls for Vectors {
    fn open(&mut self, call: &Open) -> (Written, Vec<u32>) {
        let made = lending::open(&self.proved, call);
        let Written { refused, words } = made.answer;
        self.lend_tables(&call.tables);
        self.lend(Name::Plan, &call.plan);
        self.lend(Name::State, &call.state);
        self.words.extend([OPEN, call.survey, refused, words as u32]);
        self.written(Name::State, made.at_exit(0), words);
        self.calls += 1;
        (made.answer, made.at_exit(0).to_vec())
    }

    fn turn(&mut self, call: &Turn) -> (Turned, Vec<u32>, Vec<u32>) {
        let call = Turn {
            output: filled(call.output.len()),
            ..call.clone()
        };
        let made = lending::turn(&self.proved, &call);
        let Turned {
            ending,
            refused,
            steps,
            state_words,
            list_words,
        } = made.answer;
        self.lend_tables(&call.tables);
        self.lend(Name::Plan, &call.plan);
        self.lend(Name::State, &call.state);
        self.lend(Name::Threshold, &call.threshold);
        self.lend(Name::Output, &call.output);
        self.words.extend([
            TURN,
            call.survey,
            given_word(call.given),
            call.quantum,
            ending,
            refused,
            steps,
        ]);
        self.words.extend([state_words as u32, list_words as u32]);
        self.written(Name::State, made.at_exit(0), state_words);
        self.written(Name::Output, made.at_exit(1), list_words);
        self.calls += 1;
        (made.answer, made.at_exit(0).to_vec(), made.at_exit(1).to_vec())
    }

    fn merge(&mut self, call: &Merge) -> (Written, Vec<u32>) {
        let made = lending::merge(&self.proved, call);
        let Written { refused, words } = made.answer;
        self.lend(Name::Plan, &call.plan);
        self.lend(Name::Kept, &call.kept);
        self.lend(Name::List, &call.list);
        self.words.extend([MERGE, given_word(call.given), refused, words as u32]);
        self.written(Name::Kept, made.at_exit(0), words);
        self.calls += 1;
        (made.answer, made.at_exit(0).to_vec())
    }

    fn report(&mut self, call: &Report) -> Written {
        let call = Report {
            report: filled(call.report.len()),
            ..call.clone()
        };
        let made = lending::report(&self.proved, &call);
        let Written { refused, words } = made.answer;
        self.lend(Name::Kept, &call.kept);
        self.lend(Name::Report, &call.report);
        self.words.extend([REPORT, given_word(call.given), refused, words as u32]);
        self.written(Name::Report, made.at_exit(0), words);
        self.calls += 1;
        made.answer
    }

    fn make(&mut self, call: &Make) -> Made {
        let call = Make {
            upload: call.upload.clone(),
            rows: filled(call.rows.len()),
            pos: filled(call.pos.len()),
            osp: filled(call.osp.len()),
            report: filled(call.report.len()),
        };
        let made = lending::make(&self.proved, &call);
        let Made {
            refused,
            rows_words,
            pos_words,
            osp_words,
            report_words,
        } = made.answer;
        self.lend(Name::Upload, &call.upload);
        self.lend_buffers(&call);
        let lengths = [rows_words, pos_words, osp_words, report_words];
        self.words.extend([MAKE, refused]);
        self.words.extend(lengths.map(|words| words as u32));
        for (at, words) in lengths.into_iter().enumerate() {
            self.words.extend(&made.at_exit(at)[..words]);
        }
        self.held_after(&made);
        self.calls += 1;
        made.answer
    }

    fn view(&mut self, call: &View) -> (Viewed, [Vec<u32>; 3]) {
        let call = View {
            rows: filled(call.rows.len()),
            pos: filled(call.pos.len()),
            osp: filled(call.osp.len()),
            ..call.clone()
        };
        let made = lending::view(&self.proved, &call);
        let Viewed {
            refused,
            rows_words,
            pos_words,
            osp_words,
        } = made.answer;
        self.lend_view(&call);
        let lengths = [rows_words, pos_words, osp_words];
        self.words.extend([VIEW, call.membership, refused]);
        self.words.extend(lengths.map(|words| words as u32));
        for (at, buffer) in SEEN.into_iter().enumerate() {
            self.written(buffer, made.at_exit(at), lengths[at]);
        }
        self.calls += 1;
        (made.answer, [0, 1, 2].map(|at| made.at_exit(at).to_vec()))
    }

    fn grow(&mut self, call: &Grow) -> (Viewed, [Vec<u32>; 3]) {
        let call = Grow {
            rows: filled(call.rows.len()),
            pos: filled(call.pos.len()),
            osp: filled(call.osp.len()),
            ..call.clone()
        };
        let made = lending::grow(&self.proved, &call);
        let Viewed {
            refused,
            rows_words,
            pos_words,
            osp_words,
        } = made.answer;
        for (buffer, words) in SEEN.into_iter().zip([&call.rows, &call.pos, &call.osp]) {
            self.lend(buffer, words);
        }
        let lengths = [rows_words, pos_words, osp_words];
        self.words.extend([GROW, call.seed, call.stems, call.year, refused]);
        self.words.extend(lengths.map(|words| words as u32));
        for (at, buffer) in SEEN.into_iter().enumerate() {
            self.written(buffer, made.at_exit(at), lengths[at]);
        }
        self.calls += 1;
        (made.answer, [0, 1, 2].map(|at| made.at_exit(at).to_vec()))
    }

    fn join(&mut self, call: &Join) -> Queued {
        let call = Join {
            lists: plain(&call.lists),
            ..call.clone()
        };
        let made = lending::join(&self.proved, &call);
        let answer = made.made.answer;
        self.lend_tables(&call.tables);
        self.lend(Name::Plan, &call.plan);
        self.lend(Name::State, &call.state);
        self.lend_lists(&call.lists);
        let [low, high] = two_words(call.allowance);
        self.words.extend([
            JOIN,
            call.survey,
            given_word(call.lists.waiting),
            given_word(call.lists.resting),
            call.owner,
            low,
            high,
        ]);
        self.words
            .extend([answer.refused, answer.line_entries as u32, answer.aside_entries as u32]);
        self.changed(&made);
        answer
    }

    fn serve(&mut self, call: &Serve) -> Service {
        let call = Serve {
            lists: plain(&call.lists),
            output: filled(call.output.len()),
            ..call.clone()
        };
        let made = lending::serve(&self.proved, &call);
        let answer = made.made.answer;
        self.lend_tables(&call.tables);
        self.lend(Name::Threshold, &call.threshold);
        self.lend(Name::Output, &call.output);
        self.lend_lists(&call.lists);
        let [low, high] = two_words(answer.left);
        self.words.extend([
            SERVE,
            call.survey,
            given_word(call.lists.waiting),
            given_word(call.lists.resting),
            call.quantum,
        ]);
        self.words
            .extend([answer.ending, answer.refused, answer.steps, answer.owner, low, high]);
        let lengths = [
            answer.state_words,
            answer.list_words,
            answer.line_entries,
            answer.aside_entries,
        ];
        self.words.extend(lengths.map(|words| words as u32));
        self.written(Name::Output, made.made.at_exit(0), answer.list_words);
        self.changed(&made);
        answer
    }

    fn top_up(&mut self, call: &TopUp) -> Queued {
        let call = TopUp {
            lists: plain(&call.lists),
            ..call.clone()
        };
        let made = lending::top_up(&self.proved, &call);
        let answer = made.made.answer;
        self.lend_lists(&call.lists);
        let [low, high] = two_words(call.amount);
        self.words.extend([
            TOP_UP,
            given_word(call.lists.waiting),
            given_word(call.lists.resting),
            call.owner,
            low,
            high,
        ]);
        self.words
            .extend([answer.refused, answer.line_entries as u32, answer.aside_entries as u32]);
        self.changed(&made);
        answer
    }

    fn number(&mut self, call: &Number) -> (Numbered, Vec<u8>, Vec<u32>) {
        let call = Number {
            out: filled_bytes(call.out.len()),
            cuts: filled(call.cuts.len()),
            numbers: filled(call.numbers.len()),
            places: filled(call.places.len()),
            ..call.clone()
        };
        let lending::MadeOfStrings { made, bytes: at_exit } = lending::number(&self.proved, &call);
        let Numbered { refused, bytes, strings } = made.answer;
        self.lend_bytes(Name::Strings, &call.bytes);
        self.lend(Name::Ends, &call.ends);
        self.lend_bytes(Name::Out, &call.out);
        for (buffer, words) in WRITTEN.into_iter().zip([&call.cuts, &call.numbers, &call.places]) {
            self.lend(buffer, words);
        }
        self.words.extend([NUMBER, call.kind, refused, bytes as u32, strings as u32]);
        self.words.extend(packed(&at_exit[0][..bytes]));
        self.bytes[Name::Out as usize] = at_exit[0].clone();
        let each = if refused == 0 { call.ends.len() } else { 0 };
        for (at, many) in [strings, each, each].into_iter().enumerate() {
            self.written(WRITTEN[at], made.at_exit(at), many);
        }
        self.calls += 1;
        (made.answer, at_exit[0].clone(), made.at_exit(0).to_vec())
    }

    fn find(&mut self, call: &Find) -> Found {
        let answer = lending::find(&self.proved, call).made.answer;
        self.lend_bytes(Name::Strings, &call.bytes);
        self.lend(Name::Ends, &call.ends);
        self.lend_bytes(Name::Sought, &call.sought);
        self.words
            .extend([FIND, call.kind, answer.refused, answer.present, answer.number as u32]);
        self.calls += 1;
        answer
    }

    fn string(&mut self, call: &StringOf) -> Bounds {
        let answer = lending::string(&self.proved, call).made.answer;
        self.lend_bytes(Name::Strings, &call.bytes);
        self.lend(Name::Ends, &call.ends);
        self.words.extend([STRING, call.kind, given_word(call.number)]);
        self.words
            .extend([answer.refused, answer.present, answer.start as u32, answer.end as u32]);
        self.calls += 1;
        answer
    }
}

/// Short queries: damaged and made-up calls, and a history.
fn short(to: &mut Vectors) {
    let rows = [0, ROWS / 2, ROWS];
    for seed in 0..QUERIES + FELLED {
        let random = &mut Random::new(seed);
        let query: Query = match seed < QUERIES {
            true => plans::query(random, &rows, STEPS, 2),
            false => plans::felled_query(random, &rows, STEPS),
        };
        let quantum = query.run.steps().div_ceil(random.pick(&[1, 2, 4]));
        histories::play(to, random, &query, quantum, TURNS);
        damaged(to, random, &query, 2);
        made_up(to, random, &query);
    }
}

/// Uploads: small ones as they come, damaged and made up; then the most rows and one more.
fn uploads(to: &mut Vectors) {
    for seed in 0..UPLOADS {
        uploaded(to, &mut Random::new(seed), UPLOADED);
    }
    for many in [1, 2, 1_050, 65_535, 65_536] {
        to.lend_shuffled(many);
        to.make_stems(many);
    }
    to.lend_shuffled(65_537);
    to.make(&Make {
        upload: shuffled(65_537),
        rows: filled(4),
        pos: filled(1),
        osp: filled(1),
        report: filled(1),
    });
}

/// Queues: small ones and some as large as they may be, as they come and damaged.
fn queues(to: &mut Vectors) {
    for seed in 0..QUEUES + LARGE_QUEUES {
        queued(to, &mut Random::new(seed), if seed < QUEUES { QUEUED } else { LARGEST });
    }
}

/// Views: small ones as they come, damaged and made up; then of the most rows, the last few or all of them, and one row more.
fn views(to: &mut Vectors) {
    for seed in 0..VIEWS {
        viewed(to, &mut Random::new(seed), VIEWED);
    }
    for many in [1_050, 65_536, 65_537] {
        let tables = to.lend_stems(many);
        to.view(&View {
            tables,
            grant: (many - 5..many).map(name).collect(),
            membership: name(12),
            rows: filled(21),
            pos: filled(5),
            osp: filled(5),
        });
        if many <= 65_536 {
            to.view_all(many);
        }
    }
}

/// Grown woods: small ones as they come and damaged; a larger one; and the limits, by what refuses without room.
fn woods(to: &mut Vectors) {
    for seed in 0..GROWN {
        grown(to, &mut Random::new(seed), GROWN_STEMS);
    }
    for (stems, year, many) in [
        (500, 2026, 500),
        (32_768, 9_999, 0),
        (32_769, 9_999, 0),
        (32_768, 0, 0),
        (u32::MAX, 1, 0),
    ] {
        to.grow(&Grow {
            seed: 1,
            stems,
            year,
            rows: filled(8 * many),
            pos: filled(2 * many),
            osp: filled(2 * many),
        });
    }
}

/// The pairs of stems of one stand, counted.
fn pairs() -> Plan {
    let patterns = vec![[variable(0), name(10), variable(1)], [variable(2), name(10), variable(1)]];
    let branches = vec![Branch {
        patterns,
        condition: Condition::True,
    }];
    Plan {
        year: None,
        branches,
        ending: Ending::Group(vec![1], 0),
    }
}

/// The most rows and one more, and the most steps of a turn.
fn long(to: &mut Vectors) {
    for many in [1_050, 65_535, 65_536, 65_537] {
        let (tables, plan) = (to.lend_stems(many), pairs().words());
        let (opened, state) = to.open(&Open {
            tables: tables.clone(),
            survey: many,
            plan: plan.clone(),
            state: filled(11),
        });
        to.turn(&Turn {
            tables,
            survey: many,
            plan,
            state,
            given: opened.words,
            quantum: 1_000_000,
            threshold: vec![],
            output: filled(9),
        });
    }
}

pub fn write(file: &str) {
    let proved = Library::proved();
    let mut made = Vectors {
        proved,
        held: Default::default(),
        bytes: Default::default(),
        lists: Default::default(),
        words: Vec::new(),
        calls: 0,
    };
    short(&mut made);
    uploads(&mut made);
    queues(&mut made);
    views(&mut made);
    woods(&mut made);
    for seed in 0..REPORTS {
        reported(&mut made, &mut Random::new(seed), 2);
    }
    for seed in 0..NUMBERINGS {
        numbered(&mut made, &mut Random::new(seed), NUMBERED);
    }
    many(&mut made, MANY);
    long(&mut made);
    let bytes: Vec<u8> = made.words.iter().flat_map(|word| word.to_le_bytes()).collect();
    fs::write(file, &bytes).expect("the file is written");
    println!("{} calls in {} bytes", made.calls, bytes.len());
}
