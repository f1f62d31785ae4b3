//! Each refusal by a small change to calls over the three-stem wood, and what it says.

use std::collections::BTreeSet;

use sotjarn::Term::{Name, Number};
use sotjarn::{
    grow, join, make, merge, open, serve, top_up, turn, view, Branch, Entry, Plan, PlanBuilder, Refusal, TableWords, Variable,
};
use sotjarn::{MOST_ENTRIES, NO_ENTRY};

const STEM: Variable = Variable(0);
const SIZE: Variable = Variable(1);
const SURVEY: u32 = 7;

/// What the calls are lent.
struct Lent {
    wood: TableWords,
    survey: u32,
    plan: Vec<u32>,
    state: Vec<u32>,
    state_words: usize,
    quantum: u32,
    threshold: Vec<u32>,
    output: Vec<u32>,
}

fn stems() -> PlanBuilder {
    Plan::builder().branch(Branch::new().pattern(STEM, Name(10), Name(100)).pattern(STEM, Name(12), SIZE))
}

fn lent() -> Lent {
    let stem = |(stem, size)| [[Name(stem), Name(10), Name(100)], [Name(stem), Name(12), Number(size)]];
    let wood = TableWords::of_year(2026, [(1, 45), (2, 310), (3, 310)].into_iter().flat_map(stem)).expect("every value fits");
    let plan = stems().rows([STEM, SIZE]).expect("every value fits").words().to_vec();
    let mut state = vec![0; 11];
    let state_words = open(wood.survey(SURVEY), &plan, &mut state).expect("the opening is accepted");
    Lent {
        wood,
        survey: SURVEY,
        plan,
        state,
        state_words,
        quantum: 10,
        threshold: vec![],
        output: vec![0; 2],
    }
}

/// What refuses a turn after a change.
fn refused(change: impl Fn(&mut Lent)) -> Option<u32> {
    let mut lent = lent();
    change(&mut lent);
    let Lent {
        wood,
        survey,
        plan,
        state,
        state_words,
        quantum,
        threshold,
        output,
    } = &mut lent;
    turn(wood.survey(*survey), plan, state, *state_words, *quantum, threshold, output)
        .err()
        .map(Refusal::code)
}

/// A record of so many rows, none of them a number.
fn record([low, high]: [u32; 2]) -> [u32; 8] {
    [low, high, 0, 0, 0, 0, sotjarn::UNBOUND, sotjarn::UNBOUND]
}

/// What refuses a merge of lists of one group, of so many rows.
fn merge_refused(kept_rows: [u32; 2], list_rows: [u32; 2], kept_len: usize, kept_words: usize) -> Option<u32> {
    let plan = stems().group([], SIZE).expect("every value fits");
    let mut kept = record(kept_rows);
    merge(plan.words(), &mut kept[..kept_len], kept_words, &record(list_rows))
        .err()
        .map(Refusal::code)
}

/// What refuses making tables of the wood's rows, less some words, with a report of so many.
fn make_refused(fewer: usize, report_words: usize) -> Option<u32> {
    let rows = [lent().wood.rows, vec![0x4000_07EA, 1, 10, 100]].concat(); // the last is a repeat
    let (mut made, mut pos, mut osp) = ([0; 24], [0; 6], [0; 6]);
    let mut report = vec![0; report_words];
    make(&rows[fewer..], &mut made, &mut pos, &mut osp, &mut report)
        .err()
        .map(Refusal::code)
}

/// A queue over the wood: owner 7 in the line, owner 8 set aside.
struct Queued {
    lent: Lent,
    line: Vec<Entry>,
    line_entries: usize,
    aside: Vec<Entry>,
    aside_entries: usize,
}

fn queued() -> Queued {
    let mut queue = Queued {
        lent: lent(),
        line: vec![NO_ENTRY; MOST_ENTRIES],
        line_entries: 0,
        aside: vec![NO_ENTRY; MOST_ENTRIES],
        aside_entries: 0,
    };
    assert_eq!((join_refused(&mut queue, 7, 5), join_refused(&mut queue, 8, 0)), (None, None));
    (queue.line_entries, queue.aside_entries) = (1, 1);
    queue
}

fn join_refused(queue: &mut Queued, owner: u32, allowance: u64) -> Option<u32> {
    let (
        Lent {
            wood,
            survey,
            plan,
            state,
            state_words,
            ..
        },
        line,
        aside,
    ) = (&queue.lent, &mut queue.line, &mut queue.aside);
    let (line_entries, aside_entries) = (queue.line_entries, queue.aside_entries);
    let (survey, state) = (wood.survey(*survey), &state[..*state_words]);
    join(
        survey,
        line,
        line_entries,
        aside,
        aside_entries,
        owner,
        allowance,
        plan,
        state,
    )
    .err()
    .map(Refusal::code)
}

fn serve_refused(mut queue: Queued) -> Option<u32> {
    let (
        Lent {
            wood,
            survey,
            output,
            quantum,
            ..
        },
        line,
        aside,
    ) = (&mut queue.lent, &mut queue.line, &mut queue.aside);
    serve(
        wood.survey(*survey),
        line,
        queue.line_entries,
        aside,
        queue.aside_entries,
        *quantum,
        &[],
        output,
    )
    .err()
    .map(Refusal::code)
}

/// What refuses a serve of the queue after a change; its first tests are a turn's, on the front entry.
fn served(change: impl Fn(&mut Queued)) -> Option<u32> {
    let mut queue = queued();
    change(&mut queue);
    serve_refused(queue)
}

fn topped_up(owner: u32, amount: u64) -> Option<u32> {
    let mut queue = queued();
    let (line, aside) = (&mut queue.line, &mut queue.aside);
    top_up(line, 1, aside, 1, owner, amount).err().map(Refusal::code)
}

#[test]
fn each_refusal_of_a_queue_has_its_call() {
    assert_eq!(join_refused(&mut queued(), 9, 5), None);
    assert_eq!(join_refused(&mut queued(), 7, 5), Some(17));
    assert_eq!(join_refused(&mut queued(), 8, 5), Some(17));
    for survey in [0, 8, 1 << 28 | SURVEY] {
        let mut other = queued();
        other.lent.survey = survey;
        assert_eq!(join_refused(&mut other, 9, 5), Some(22));
    }
    assert_eq!(served(|_| ()), None);
    assert_eq!(served(|queue| queue.line[0].planned = 257), Some(5));
    assert_eq!(served(|queue| queue.lent.output.truncate(1)), Some(7));
    assert_eq!(served(|queue| queue.lent.quantum = 0), Some(8));
    assert_eq!(served(|queue| queue.line[0].saved = 12), Some(9));
    assert_eq!(served(|queue| queue.line[0].state[0] += 1), Some(22));
    assert_eq!(served(|queue| queue.lent.survey += 1), Some(22));
    assert_eq!(served(|queue| queue.line[0].state[1] += 1), Some(9)); // a year that is not being read
    assert_eq!(served(|queue| queue.line[0].state[3] += 4), Some(10));
    assert_eq!(served(|queue| queue.line[0].allowance = 0), Some(17));
    assert_eq!(served(|queue| queue.aside[0].allowance = 1), Some(17));
    assert_eq!(served(|queue| queue.aside[0].owner = 7), Some(17));
    assert_eq!(served(|queue| queue.line.truncate(31)), Some(18));
    assert_eq!(served(|queue| queue.aside_entries = usize::MAX), Some(17)); // entries of nobody, all the same owner's
    assert_eq!(served(|queue| queue.line_entries = 0), Some(19));
    assert_eq!(served(|queue| (queue.line_entries, queue.lent.quantum) = (0, 0)), Some(8));
    assert_eq!(
        served(|queue| (queue.line_entries, queue.lent.survey) = (0, 1 << 28)),
        Some(22)
    );
    assert_eq!(served(|queue| (queue.line_entries, queue.lent.survey) = (0, 8)), Some(19)); // no state to compare with
    let mut full = queued();
    for (owner, entry) in full.aside.iter_mut().enumerate() {
        entry.owner = 100 + owner as u32;
    }
    full.aside_entries = 31;
    assert_eq!(join_refused(&mut full, 9, 5), Some(18));
    assert_eq!(serve_refused(full), None);
    assert_eq!(
        (topped_up(8, 1), topped_up(8, 0), topped_up(7, 1), topped_up(9, 1)),
        (None, Some(17), Some(17), Some(17))
    );
}

/// What refuses a view of the wood after a change, with buffers for so many rows.
fn view_refused(change: impl Fn(&mut Lent), grant: &[u32], rows: usize) -> Option<u32> {
    let mut lent = lent();
    change(&mut lent);
    let (mut seen, mut pos, mut osp) = (vec![0; 4 * rows], vec![0; rows], vec![0; rows]);
    view(lent.wood.tables(), grant, 10, &mut seen, &mut pos, &mut osp)
        .err()
        .map(Refusal::code)
}

#[test]
fn each_refusal_of_a_view_has_its_call() {
    assert_eq!(view_refused(|_| (), &[2], 2), None);
    assert_eq!(view_refused(|lent| lent.wood.rows.truncate(23), &[2, 2], 0), Some(1));
    assert_eq!(view_refused(|lent| lent.wood.rows[1] |= 1 << 30, &[2, 2], 0), Some(2));
    assert_eq!(view_refused(|lent| lent.wood.rows[0] = 1 << 30, &[2, 2], 0), Some(23));
    assert_eq!(view_refused(|lent| lent.wood.rows[..8].rotate_left(4), &[2, 2], 0), Some(3));
    assert_eq!(view_refused(|lent| lent.wood.osp[5] = 3, &[2, 2], 0), Some(4));
    assert_eq!(view_refused(|_| (), &[2, 2], 0), Some(20));
    assert_eq!(view_refused(|_| (), &[1 << 30], 6), Some(20));
    assert_eq!(view_refused(|_| (), &[100], 5), Some(21));
    assert_eq!(view_refused(|_| (), &[100], 6), None);
}

/// What refuses growing so many stems in a year, with buffers of so many words.
fn grow_refused(stems: u32, year: u32, [rows, pos, osp]: [usize; 3]) -> Option<u32> {
    let (mut rows, mut pos, mut osp) = (vec![0; rows], vec![0; pos], vec![0; osp]);
    grow(7, stems, year, &mut rows, &mut pos, &mut osp).err().map(Refusal::code)
}

#[test]
fn each_refusal_of_growing_has_its_call() {
    let most = [262_144, 65_536, 65_536];
    assert_eq!(grow_refused(32_768, 1, most), None);
    assert_eq!(grow_refused(32_768, 9_999, most), None);
    assert_eq!(grow_refused(32_769, 2026, [262_152, 65_538, 65_538]), Some(24));
    assert_eq!(grow_refused(u32::MAX, 2026, most), Some(24));
    assert_eq!(grow_refused(2, 0, [16, 4, 4]), Some(24));
    assert_eq!(grow_refused(2, 10_000, [16, 4, 4]), Some(24));
    assert_eq!(grow_refused(2, 0x4000_07EA, [16, 4, 4]), Some(24)); // the year is no word
    assert_eq!(grow_refused(2, 0, [0, 0, 0]), Some(24));
    assert_eq!(grow_refused(2, 2026, [16, 4, 4]), None);
    assert_eq!(grow_refused(2, 2026, [15, 4, 4]), Some(25));
    assert_eq!(grow_refused(2, 2026, [16, 3, 4]), Some(25));
    assert_eq!(grow_refused(2, 2026, [16, 4, 3]), Some(25));
    assert_eq!(grow_refused(0, 2026, [0, 0, 0]), None);
}

#[test]
fn each_refusal_has_its_call() {
    assert_eq!(refused(|_| ()), None);
    assert_eq!(refused(|lent| lent.wood.rows.truncate(23)), Some(1));
    assert_eq!(refused(|lent| lent.wood.rows[1] |= 1 << 30), Some(2));
    assert_eq!(refused(|lent| lent.wood.rows[0] = 1 << 30 | 10_000), Some(23));
    assert_eq!(refused(|lent| lent.wood.rows[..8].rotate_left(4)), Some(3));
    assert_eq!(refused(|lent| lent.wood.pos[5] = 3), Some(4));
    assert_eq!(refused(|lent| lent.plan.push(0)), Some(5));
    assert_eq!(refused(|lent| *lent.plan.last_mut().expect("a plan has words") += 1), Some(6));
    assert_eq!(refused(|lent| lent.plan.insert(0, 10_000)), Some(23));
    assert_eq!(refused(|lent| lent.plan.insert(0, 2025)), Some(9)); // the state is of 2026
    assert_eq!(refused(|lent| lent.output.truncate(1)), Some(7));
    assert_eq!(refused(|lent| lent.quantum = 0), Some(8));
    assert_eq!(refused(|lent| lent.state_words = 0), Some(9));
    assert_eq!(refused(|lent| lent.state[0] += 1), Some(22));
    assert_eq!(refused(|lent| lent.survey = 1 << 28 | SURVEY), Some(22));
    assert_eq!(refused(|lent| lent.state[3] += 4), Some(10));
    assert_eq!(refused(|lent| lent.threshold = vec![1, 2]), Some(11));
    assert_eq!(merge_refused([1, 0], [1, 0], 8, 8), None);
    assert_eq!(merge_refused([1, 0], [1, 0], 8, 7), Some(12));
    assert_eq!(merge_refused([u32::MAX; 2], [1, 0], 8, 8), Some(13));
    assert_eq!(merge_refused([1, 0], [1, 0], 7, 0), Some(14));
    assert_eq!(make_refused(0, 2), None);
    assert_eq!(make_refused(15, 2), Some(15));
    assert_eq!(make_refused(0, 1), Some(16));
}

/// What refuses a merge of a kept record and none, its words behind so many keys n1.
fn record_refused(keys: usize, totals: [u32; 8]) -> Option<u32> {
    let plan = stems().group([STEM, SIZE][..keys].to_vec(), SIZE).expect("every value fits");
    let mut kept = [&[1; 2][..keys], &totals].concat();
    let words = kept.len();
    merge(plan.words(), &mut kept, words, &[]).err().map(Refusal::code)
}

#[test]
fn a_record_of_no_rows_passes_only_without_keys() {
    let nothing = record([0, 0]);
    assert_eq!(merge_refused([0, 0], [0, 0], 8, 8), None);
    assert_eq!(merge_refused([0, 0], [1, 0], 8, 8), None);
    assert_eq!(merge_refused([1, 0], [0, 0], 7, 0), Some(14));
    assert_eq!(record_refused(0, nothing), None);
    for keys in 1..=2 {
        assert_eq!(record_refused(keys, record([1, 0])), None);
        assert_eq!(record_refused(keys, nothing), Some(12));
    }
    for (at, word) in [
        (2, 1),
        (3, 1),
        (4, 1),
        (5, 1),
        (6, 0x4000_0000),
        (7, 0x4000_0000),
        (6, 0),
        (7, 0xC000_0001),
    ] {
        let mut other = nothing;
        other[at] = word;
        assert_eq!(record_refused(0, other), Some(12), "word {at}: {word:x}");
    }
}

#[test]
fn each_refusal_says_its_number_and_something_of_its_own() {
    let said: BTreeSet<String> = (1..=28)
        .filter_map(Refusal::from_code)
        .map(|refusal| refusal.to_string())
        .collect();
    assert_eq!(said.len(), 28);
    for code in 1..=28 {
        let refusal = Refusal::from_code(code).expect("the rules have it");
        assert_eq!(refusal.code(), code);
        assert!(refusal.to_string().starts_with(&format!("refused by {code}: ")));
    }
    assert_eq!((Refusal::from_code(0), Refusal::from_code(29)), (None, None));
}
