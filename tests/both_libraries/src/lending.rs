//! Calls made of a library over copies of their buffers, with guard words around each: what they answer, and every word at exit.

use crate::evaluation::calls::{Merge, Open, Turn};
use crate::evaluation::growing::Grow;
use crate::evaluation::queues::{Join, Lists, Serve, TopUp, Waiting};
use crate::evaluation::registers::Report;
use crate::evaluation::uploads::Make;
use crate::evaluation::views::View;
use crate::libraries::{self, Bounds, Entry, Found, Lent, LentLists, Library, Numbered, Queued, Service, Turned, Viewed, Written};
use crate::strings::{Find, Number, StringOf};

const GUARDS: usize = 8;
const GUARD: u32 = 0xA5A5_C3C3;

/// A copy of a buffer, with guard words before and behind.
#[derive(Debug, PartialEq)]
pub struct Copied(Vec<u32>);

impl Copied {
    fn new(words: &[u32]) -> Copied {
        Copied([&[GUARD; GUARDS], words, &[GUARD; GUARDS]].concat())
    }

    fn words(&self) -> &[u32] {
        &self.0[GUARDS..self.0.len() - GUARDS]
    }

    fn words_mut(&mut self) -> &mut [u32] {
        let end = self.0.len() - GUARDS;
        &mut self.0[GUARDS..end]
    }

    /// Whether the guard words are as they were.
    fn is_whole(&self) -> bool {
        let (front, rest) = self.0.split_at(GUARDS);
        front.iter().chain(&rest[rest.len() - GUARDS..]).all(|&word| word == GUARD)
    }
}

/// What a call answered, and its buffers at exit: those that are written first.
#[derive(Debug, PartialEq)]
pub struct Made<T> {
    pub answer: T,
    buffers: Vec<Copied>,
}

impl<T> Made<T> {
    fn new(answer: T, buffers: Vec<Copied>) -> Made<T> {
        assert!(buffers.iter().all(Copied::is_whole), "a word beside a buffer has changed");
        Made { answer, buffers }
    }

    pub fn at_exit(&self, buffer: usize) -> &[u32] {
        self.buffers[buffer].words()
    }
}

pub fn open(library: &Library, call: &Open) -> Made<Written> {
    let [rows, pos, osp, plan] =
        [&call.tables.rows, &call.tables.pos, &call.tables.osp, &call.plan].map(|words| Copied::new(words));
    let mut state = Copied::new(&call.state);
    let lent = Lent {
        rows: rows.words(),
        pos: pos.words(),
        osp: osp.words(),
        survey: call.survey,
        plan: plan.words(),
    };
    let answer = library.open(&lent, state.words_mut());
    Made::new(answer, vec![state, rows, pos, osp, plan])
}

pub fn turn(library: &Library, call: &Turn) -> Made<Turned> {
    let [rows, pos, osp, plan] =
        [&call.tables.rows, &call.tables.pos, &call.tables.osp, &call.plan].map(|words| Copied::new(words));
    let threshold = Copied::new(&call.threshold);
    let (mut state, mut output) = (Copied::new(&call.state), Copied::new(&call.output));
    let lent = Lent {
        rows: rows.words(),
        pos: pos.words(),
        osp: osp.words(),
        survey: call.survey,
        plan: plan.words(),
    };
    let answer = library.turn(
        &lent,
        state.words_mut(),
        call.given,
        call.quantum,
        threshold.words(),
        output.words_mut(),
    );
    Made::new(answer, vec![state, output, rows, pos, osp, plan, threshold])
}

pub fn merge(library: &Library, call: &Merge) -> Made<Written> {
    let (plan, list, mut kept) = (Copied::new(&call.plan), Copied::new(&call.list), Copied::new(&call.kept));
    let answer = library.merge(plan.words(), kept.words_mut(), call.given, list.words());
    Made::new(answer, vec![kept, plan, list])
}

pub fn report(library: &Library, call: &Report) -> Made<Written> {
    let (kept, mut report) = (Copied::new(&call.kept), Copied::new(&call.report));
    let answer = library.report(kept.words(), call.given, report.words_mut());
    Made::new(answer, vec![report, kept])
}

pub fn least_output(library: &Library, plan: &Vec<u32>) -> Made<Written> {
    let plan = Copied::new(plan);
    let answer = library.least_output(plan.words());
    Made::new(answer, vec![plan])
}

pub fn make(library: &Library, call: &Make) -> Made<libraries::Made> {
    let upload = Copied::new(&call.upload);
    let [mut rows, mut pos, mut osp, mut report] = [&call.rows, &call.pos, &call.osp, &call.report].map(|words| Copied::new(words));
    let answer = library.make(
        upload.words(),
        rows.words_mut(),
        pos.words_mut(),
        osp.words_mut(),
        report.words_mut(),
    );
    Made::new(answer, vec![rows, pos, osp, report, upload])
}

pub fn view(library: &Library, call: &View) -> Made<Viewed> {
    let [rows, pos, osp, grant] =
        [&call.tables.rows, &call.tables.pos, &call.tables.osp, &call.grant].map(|words| Copied::new(words));
    let [mut seen, mut seen_pos, mut seen_osp] = [&call.rows, &call.pos, &call.osp].map(|words| Copied::new(words));
    let lent = Lent {
        rows: rows.words(),
        pos: pos.words(),
        osp: osp.words(),
        survey: 0,
        plan: &[],
    };
    let buffers = [seen.words_mut(), seen_pos.words_mut(), seen_osp.words_mut()];
    let answer = library.view(&lent, grant.words(), call.membership, buffers);
    Made::new(answer, vec![seen, seen_pos, seen_osp, rows, pos, osp, grant])
}

pub fn grow(library: &Library, call: &Grow) -> Made<Viewed> {
    let [mut rows, mut pos, mut osp] = [&call.rows, &call.pos, &call.osp].map(|words| Copied::new(words));
    let answer = library.grow(
        call.seed,
        call.stems,
        call.year,
        rows.words_mut(),
        pos.words_mut(),
        osp.words_mut(),
    );
    Made::new(answer, vec![rows, pos, osp])
}

/// An entry as C has it, and as the evaluation has it.
pub fn entry(waiting: &Waiting) -> Entry {
    Entry {
        allowance: waiting.allowance,
        owner: waiting.owner,
        plan_words: waiting.planned,
        state_words: waiting.saved,
        plan: waiting.plan[..].try_into().expect("room for the longest plan"),
        state: waiting.state[..].try_into().expect("room for a state"),
    }
}

pub fn waiting(entry: &Entry) -> Waiting {
    Waiting {
        allowance: entry.allowance,
        owner: entry.owner,
        planned: entry.plan_words,
        saved: entry.state_words,
        plan: entry.plan.to_vec(),
        state: entry.state.to_vec(),
    }
}

/// What a call of a queue answered, its lists at exit, and its other buffers.
#[derive(Debug, PartialEq)]
pub struct MadeOfLists<T> {
    pub made: Made<T>,
    pub line: Vec<Waiting>,
    pub aside: Vec<Waiting>,
}

/// Copies of both lists, with an entry of guard words before and behind each.
struct CopiedLists {
    line: Vec<Entry>,
    aside: Vec<Entry>,
}

const BESIDE: Entry = Entry {
    allowance: (GUARD as u64) << 32 | GUARD as u64,
    owner: GUARD,
    plan_words: GUARD,
    state_words: GUARD,
    plan: [GUARD; 256],
    state: [GUARD; 11],
};

impl CopiedLists {
    fn new(lists: &Lists) -> CopiedLists {
        let copied = |entries: &[Waiting]| {
            [BESIDE]
                .into_iter()
                .chain(entries.iter().map(entry))
                .chain([BESIDE])
                .collect()
        };
        CopiedLists {
            line: copied(&lists.line),
            aside: copied(&lists.aside),
        }
    }

    fn lent(&mut self, lists: &Lists) -> LentLists<'_> {
        let (line_end, aside_end) = (self.line.len() - 1, self.aside.len() - 1);
        LentLists {
            line: &mut self.line[1..line_end],
            line_entries: lists.waiting,
            aside: &mut self.aside[1..aside_end],
            aside_entries: lists.resting,
        }
    }

    /// What the call left.
    fn made<T>(self, made: Made<T>) -> MadeOfLists<T> {
        let whole = |list: &[Entry]| list[0] == BESIDE && list[list.len() - 1] == BESIDE;
        assert!(whole(&self.line) && whole(&self.aside), "an entry beside a list has changed");
        let entries = |list: &[Entry]| list[1..list.len() - 1].iter().map(waiting).collect();
        MadeOfLists {
            made,
            line: entries(&self.line),
            aside: entries(&self.aside),
        }
    }
}

pub fn join(library: &Library, call: &Join) -> MadeOfLists<Queued> {
    let [rows, pos, osp, plan, state] =
        [&call.tables.rows, &call.tables.pos, &call.tables.osp, &call.plan, &call.state].map(|words| Copied::new(words));
    let mut lists = CopiedLists::new(&call.lists);
    let lent = Lent {
        rows: rows.words(),
        pos: pos.words(),
        osp: osp.words(),
        survey: call.survey,
        plan: plan.words(),
    };
    let answer = library.join(&lent, lists.lent(&call.lists), call.owner, call.allowance, state.words());
    lists.made(Made::new(answer, vec![rows, pos, osp, plan, state]))
}

pub fn serve(library: &Library, call: &Serve) -> MadeOfLists<Service> {
    let [rows, pos, osp, threshold] =
        [&call.tables.rows, &call.tables.pos, &call.tables.osp, &call.threshold].map(|words| Copied::new(words));
    let (mut output, mut lists) = (Copied::new(&call.output), CopiedLists::new(&call.lists));
    let lent = Lent {
        rows: rows.words(),
        pos: pos.words(),
        osp: osp.words(),
        survey: call.survey,
        plan: &[],
    };
    let answer = library.serve(
        &lent,
        lists.lent(&call.lists),
        call.quantum,
        threshold.words(),
        output.words_mut(),
    );
    lists.made(Made::new(answer, vec![output, rows, pos, osp, threshold]))
}

pub fn top_up(library: &Library, call: &TopUp) -> MadeOfLists<Queued> {
    let mut lists = CopiedLists::new(&call.lists);
    let answer = library.top_up(lists.lent(&call.lists), call.owner, call.amount);
    lists.made(Made::new(answer, Vec::new()))
}

/// A copy of a buffer of bytes, with guard bytes before and behind.
struct CopiedBytes(Vec<u8>);

const GUARD_BYTE: u8 = 0xC3;

impl CopiedBytes {
    fn new(bytes: &[u8]) -> CopiedBytes {
        CopiedBytes([&[GUARD_BYTE; GUARDS], bytes, &[GUARD_BYTE; GUARDS]].concat())
    }

    fn bytes_mut(&mut self) -> &mut [u8] {
        let end = self.0.len() - GUARDS;
        &mut self.0[GUARDS..end]
    }

    /// The bytes at exit; those beside them must be as they were.
    fn at_exit(self) -> Vec<u8> {
        let end = self.0.len() - GUARDS;
        let beside = self.0[..GUARDS].iter().chain(&self.0[end..]);
        assert!(
            beside.into_iter().all(|&byte| byte == GUARD_BYTE),
            "a byte beside a buffer has changed"
        );
        self.0[GUARDS..end].to_vec()
    }
}

/// What a call over strings answered, its buffers of words at exit, and those of bytes: what is written first.
#[derive(Debug, PartialEq)]
pub struct MadeOfStrings<T> {
    pub made: Made<T>,
    pub bytes: Vec<Vec<u8>>,
}

pub fn number(library: &Library, call: &Number) -> MadeOfStrings<Numbered> {
    let (mut bytes, mut out, ends) = (
        CopiedBytes::new(&call.bytes),
        CopiedBytes::new(&call.out),
        Copied::new(&call.ends),
    );
    let [mut cuts, mut numbers, mut places] = [&call.cuts, &call.numbers, &call.places].map(|words| Copied::new(words));
    let written = [cuts.words_mut(), numbers.words_mut(), places.words_mut()];
    let answer = library.number(call.kind, bytes.bytes_mut(), ends.words(), out.bytes_mut(), written);
    MadeOfStrings {
        made: Made::new(answer, vec![cuts, numbers, places, ends]),
        bytes: vec![out.at_exit(), bytes.at_exit()],
    }
}

pub fn find(library: &Library, call: &Find) -> MadeOfStrings<Found> {
    let (mut bytes, mut sought, ends) = (
        CopiedBytes::new(&call.bytes),
        CopiedBytes::new(&call.sought),
        Copied::new(&call.ends),
    );
    let answer = library.find(call.kind, bytes.bytes_mut(), ends.words(), sought.bytes_mut());
    MadeOfStrings {
        made: Made::new(answer, vec![ends]),
        bytes: vec![bytes.at_exit(), sought.at_exit()],
    }
}

pub fn string(library: &Library, call: &StringOf) -> MadeOfStrings<Bounds> {
    let (mut bytes, ends) = (CopiedBytes::new(&call.bytes), Copied::new(&call.ends));
    let answer = library.string(call.kind, bytes.bytes_mut(), ends.words(), call.number);
    MadeOfStrings {
        made: Made::new(answer, vec![ends]),
        bytes: vec![bytes.at_exit()],
    }
}
