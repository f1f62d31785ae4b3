//! The crate's calls with guard words around every buffer, answering as the evaluation does.

use std::cell::Cell;
use std::hint::black_box;

use crate::evaluation::calls::{Answer, How, Merge, Open, Turn};
use crate::evaluation::growing::{self, Grow};
use crate::evaluation::queues::{Counts, Join, Lists, Serve, Service, TopUp, Waiting};
use crate::evaluation::registers::Report;
use crate::evaluation::uploads::{Make, Written};
use crate::evaluation::views::{self, View};
use sotjarn::{Entry, Queued, Refusal, Survey, Tables, TurnEnding, Turned, NO_ENTRY};

thread_local! {
    /// Moves each buffer to another alignment than the one before.
    static SHIFT: Cell<usize> = const { Cell::new(0) };
}

/// Words lent to a call, with guard words before and behind.
struct Guarded<'a> {
    name: &'static str,
    given: &'a [u32],
    words: Vec<u32>,
    guard: usize,
}

impl<'a> Guarded<'a> {
    fn new(name: &'static str, given: &'a [u32]) -> Guarded<'a> {
        let guard = 8 + SHIFT.replace((SHIFT.get() + 1) % 7);
        let beside = |_| 0xA5A5_C3C3;
        let words = (0..guard)
            .map(beside)
            .chain(given.iter().copied())
            .chain((0..guard).map(beside))
            .collect();
        Guarded {
            name,
            given,
            words,
            guard,
        }
    }

    fn lent(&self) -> &[u32] {
        &self.words[self.guard..self.words.len() - self.guard]
    }

    fn lent_mut(&mut self) -> &mut [u32] {
        let end = self.words.len() - self.guard;
        &mut self.words[self.guard..end]
    }

    /// The words at exit; the guard words must be as they were.
    fn at_exit(self) -> Vec<u32> {
        let words = black_box(self.words);
        let end = words.len() - self.guard;
        let beside = words[..self.guard].iter().chain(&words[end..]);
        assert!(
            beside.copied().all(|word| word == 0xA5A5_C3C3),
            "a word beside {} has changed",
            self.name
        );
        words[self.guard..end].to_vec()
    }

    fn unchanged(self) {
        let (name, given) = (self.name, self.given);
        assert!(self.at_exit() == given, "{name} has changed");
    }
}

/// Tables under a survey's number, as they are lent.
fn lent<'a>(number: u32, [rows, pos, osp]: [&'a Guarded; 3]) -> Survey<'a> {
    let (rows, pos, osp) = (rows.lent(), pos.lent(), osp.lent());
    Tables { rows, pos, osp }.survey(number)
}

fn number(refusal: Refusal) -> u32 {
    refusal.code()
}

pub fn open(call: &Open) -> (Result<usize, u32>, Vec<u32>) {
    let (rows, plan) = (Guarded::new("rows", &call.tables.rows), Guarded::new("plan", &call.plan));
    let (pos, osp) = (Guarded::new("pos", &call.tables.pos), Guarded::new("osp", &call.tables.osp));
    let mut state = Guarded::new("state", &call.state);
    let survey = lent(call.survey, [&rows, &pos, &osp]);
    let answer = sotjarn::open(survey, plan.lent(), state.lent_mut());
    [rows, pos, osp, plan].into_iter().for_each(Guarded::unchanged);
    (answer.map_err(number), state.at_exit())
}

pub fn turn(call: &Turn) -> (Result<Answer, u32>, Vec<u32>, Vec<u32>) {
    let (rows, plan) = (Guarded::new("rows", &call.tables.rows), Guarded::new("plan", &call.plan));
    let (pos, osp) = (Guarded::new("pos", &call.tables.pos), Guarded::new("osp", &call.tables.osp));
    let threshold = Guarded::new("threshold", &call.threshold);
    let (mut state, mut output) = (Guarded::new("state", &call.state), Guarded::new("output", &call.output));
    let survey = lent(call.survey, [&rows, &pos, &osp]);
    let (state_lent, output_lent) = (state.lent_mut(), output.lent_mut());
    let answer = sotjarn::turn(
        survey,
        plan.lent(),
        state_lent,
        call.given,
        call.quantum,
        threshold.lent(),
        output_lent,
    );
    [rows, pos, osp, plan, threshold].into_iter().for_each(Guarded::unchanged);
    (answer.map_err(number).map(answered), state.at_exit(), output.at_exit())
}

fn answered(turned: Turned) -> Answer {
    let how = match turned.ending {
        TurnEnding::Done => How::Done,
        TurnEnding::Spent => How::Spent,
        TurnEnding::Full => How::Full,
    };
    (turned.steps, how, turned.state_words, turned.list_words)
}

pub fn merge(call: &Merge) -> (Result<usize, u32>, Vec<u32>) {
    let (plan, list) = (Guarded::new("plan", &call.plan), Guarded::new("list", &call.list));
    let mut kept = Guarded::new("kept", &call.kept);
    let answer = sotjarn::merge(plan.lent(), kept.lent_mut(), call.given, list.lent());
    [plan, list].into_iter().for_each(Guarded::unchanged);
    (answer.map_err(number), kept.at_exit())
}

pub fn report(call: &Report) -> (Result<usize, u32>, Vec<u32>) {
    let (kept, mut report) = (Guarded::new("kept", &call.kept), Guarded::new("report", &call.report));
    let answer = sotjarn::report(kept.lent(), call.given, report.lent_mut());
    kept.unchanged();
    (answer.map_err(number), report.at_exit())
}

pub fn make(call: &Make) -> (Result<Written, u32>, Make) {
    let upload = Guarded::new("upload", &call.upload);
    let (mut rows, mut pos) = (Guarded::new("rows", &call.rows), Guarded::new("pos", &call.pos));
    let (mut osp, mut report) = (Guarded::new("osp", &call.osp), Guarded::new("report", &call.report));
    let answer = sotjarn::make(
        upload.lent(),
        rows.lent_mut(),
        pos.lent_mut(),
        osp.lent_mut(),
        report.lent_mut(),
    );
    upload.unchanged();
    let at_exit = Make {
        upload: call.upload.clone(),
        rows: rows.at_exit(),
        pos: pos.at_exit(),
        osp: osp.at_exit(),
        report: report.at_exit(),
    };
    let answer = answer.map(|made| (made.rows_words, made.pos_words, made.osp_words, made.report_words));
    (answer.map_err(number), at_exit)
}

pub fn view(call: &View) -> (Result<views::Written, u32>, View) {
    let (rows, grant) = (Guarded::new("rows", &call.tables.rows), Guarded::new("grant", &call.grant));
    let (pos, osp) = (Guarded::new("pos", &call.tables.pos), Guarded::new("osp", &call.tables.osp));
    let (mut seen, mut seen_pos) = (Guarded::new("view rows", &call.rows), Guarded::new("view pos", &call.pos));
    let mut seen_osp = Guarded::new("view osp", &call.osp);
    let tables = Tables {
        rows: rows.lent(),
        pos: pos.lent(),
        osp: osp.lent(),
    };
    let (view_rows, view_pos, view_osp) = (seen.lent_mut(), seen_pos.lent_mut(), seen_osp.lent_mut());
    let answer = sotjarn::view(tables, grant.lent(), call.membership, view_rows, view_pos, view_osp);
    [rows, pos, osp, grant].into_iter().for_each(Guarded::unchanged);
    let at_exit = View {
        rows: seen.at_exit(),
        pos: seen_pos.at_exit(),
        osp: seen_osp.at_exit(),
        ..call.clone()
    };
    let answer = answer.map(|viewed| (viewed.rows_words, viewed.pos_words, viewed.osp_words));
    (answer.map_err(number), at_exit)
}

pub fn grow(call: &Grow) -> (Result<growing::Written, u32>, Grow) {
    let (mut rows, mut pos) = (Guarded::new("rows", &call.rows), Guarded::new("pos", &call.pos));
    let mut osp = Guarded::new("osp", &call.osp);
    let answer = sotjarn::grow(
        call.seed,
        call.stems,
        call.year,
        rows.lent_mut(),
        pos.lent_mut(),
        osp.lent_mut(),
    );
    let at_exit = Grow {
        rows: rows.at_exit(),
        pos: pos.at_exit(),
        osp: osp.at_exit(),
        ..call.clone()
    };
    let answer = answer.map(|grown| (grown.rows_words, grown.pos_words, grown.osp_words));
    (answer.map_err(number), at_exit)
}

/// An entry as the crate has it.
fn entry(waiting: &Waiting) -> Entry {
    Entry {
        allowance: waiting.allowance,
        owner: waiting.owner,
        planned: waiting.planned,
        saved: waiting.saved,
        plan: waiting.plan[..].try_into().expect("an entry has room for the longest plan"),
        state: waiting.state[..].try_into().expect("an entry has room for its state"),
    }
}

pub fn waiting(entry: &Entry) -> Waiting {
    Waiting {
        allowance: entry.allowance,
        owner: entry.owner,
        planned: entry.planned,
        saved: entry.saved,
        plan: entry.plan.to_vec(),
        state: entry.state.to_vec(),
    }
}

/// Entries lent to a call, with an entry before and one behind.
struct GuardedEntries(Vec<Entry>);

/// What stands beside the entries.
const BESIDE: Entry = Entry {
    allowance: 0xA5A5_C3C3_A5A5_C3C3,
    owner: 0xA5A5_C3C3,
    planned: 0xA5A5_C3C3,
    saved: 0xA5A5_C3C3,
    ..NO_ENTRY
};

impl GuardedEntries {
    fn new(given: &[Waiting]) -> GuardedEntries {
        GuardedEntries([BESIDE].into_iter().chain(given.iter().map(entry)).chain([BESIDE]).collect())
    }

    fn lent(&mut self) -> &mut [Entry] {
        let end = self.0.len() - 1;
        &mut self.0[1..end]
    }

    /// The entries at exit; those beside must be as they were.
    fn at_exit(self) -> Vec<Waiting> {
        let entries = black_box(self.0);
        let end = entries.len() - 1;
        assert!(
            entries[0] == BESIDE && entries[end] == BESIDE,
            "an entry beside a list has changed"
        );
        entries[1..end].iter().map(waiting).collect()
    }
}

/// Both lists at exit, with the counts of a served call.
fn left(lists: &Lists, line: GuardedEntries, aside: GuardedEntries, counts: Option<Counts>) -> Lists {
    let (waiting, resting) = counts.unwrap_or((lists.waiting, lists.resting));
    Lists {
        line: line.at_exit(),
        waiting,
        aside: aside.at_exit(),
        resting,
    }
}

fn counted(answer: Result<Queued, Refusal>) -> Result<Counts, u32> {
    answer
        .map(|queued| (queued.line_entries, queued.aside_entries))
        .map_err(number)
}

pub fn join(call: &Join) -> (Result<Counts, u32>, Lists) {
    let (rows, plan) = (Guarded::new("rows", &call.tables.rows), Guarded::new("plan", &call.plan));
    let (pos, osp) = (Guarded::new("pos", &call.tables.pos), Guarded::new("osp", &call.tables.osp));
    let (state, lists) = (Guarded::new("state", &call.state), &call.lists);
    let (mut line, mut aside) = (GuardedEntries::new(&lists.line), GuardedEntries::new(&lists.aside));
    let survey = lent(call.survey, [&rows, &pos, &osp]);
    let answer = counted(sotjarn::join(
        survey,
        line.lent(),
        lists.waiting,
        aside.lent(),
        lists.resting,
        call.owner,
        call.allowance,
        plan.lent(),
        state.lent(),
    ));
    [rows, pos, osp, plan, state].into_iter().for_each(Guarded::unchanged);
    (answer, left(lists, line, aside, answer.ok()))
}

pub fn serve(call: &Serve) -> (Result<Service, u32>, Lists, Vec<u32>) {
    let (rows, threshold) = (
        Guarded::new("rows", &call.tables.rows),
        Guarded::new("threshold", &call.threshold),
    );
    let (pos, osp) = (Guarded::new("pos", &call.tables.pos), Guarded::new("osp", &call.tables.osp));
    let (mut output, lists) = (Guarded::new("output", &call.output), &call.lists);
    let (mut line, mut aside) = (GuardedEntries::new(&lists.line), GuardedEntries::new(&lists.aside));
    let survey = lent(call.survey, [&rows, &pos, &osp]);
    let answer = sotjarn::serve(
        survey,
        line.lent(),
        lists.waiting,
        aside.lent(),
        lists.resting,
        call.quantum,
        threshold.lent(),
        output.lent_mut(),
    );
    [rows, pos, osp, threshold].into_iter().for_each(Guarded::unchanged);
    let answer = answer.map_err(number).map(|served| {
        let counts = (served.line_entries, served.aside_entries);
        (answered(served.turned), served.owner, served.left, counts)
    });
    let counts = answer.ok().map(|(.., counts)| counts);
    (answer, left(lists, line, aside, counts), output.at_exit())
}

pub fn top_up(call: &TopUp) -> (Result<Counts, u32>, Lists) {
    let lists = &call.lists;
    let (mut line, mut aside) = (GuardedEntries::new(&lists.line), GuardedEntries::new(&lists.aside));
    let (waiting, resting) = (lists.waiting, lists.resting);
    let answer = counted(sotjarn::top_up(
        line.lent(),
        waiting,
        aside.lent(),
        resting,
        call.owner,
        call.amount,
    ));
    (answer, left(lists, line, aside, answer.ok()))
}
