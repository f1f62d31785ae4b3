//! Calls made of both libraries, and compared.

use std::collections::BTreeMap;
use std::ops::Range;
use std::process::exit;

use crate::evaluation::calls::{Merge, Open, Query, Turn};
use crate::evaluation::growing::Grow;
use crate::evaluation::queues::{Join, Serve, TopUp, MOST};
use crate::evaluation::registers::Report;
use crate::evaluation::tables::Tables;
use crate::evaluation::uploads::Make;
use crate::evaluation::views::View;
use crate::evaluation::words::*;
use crate::histories::{self, Calls};
use crate::inputs::random::Random;
use crate::inputs::{calls, damage, growing, plans, queues, uploads, views, woods};
use crate::lending;
use crate::libraries::{self, Bounds, Found, Library, Numbered, Queued, Service, Turned, Viewed, Written};
use crate::strings::{many, numbered, Find, Number, StringOf};

/// Both libraries, and how often each answer came.
struct Both {
    proved: Library,
    portable: Library,
    came: BTreeMap<String, u64>,
    calls: u64,
    seed: u64,
}

/// What a refused call, or a served one by its number, is counted as.
fn named(refused: u32, served: &str) -> String {
    match refused {
        0 => served.to_string(),
        number => format!("refused by {number:02}"),
    }
}

impl Both {
    /// The same call of both; a difference ends the program.
    fn made<C: std::fmt::Debug, M: PartialEq + std::fmt::Debug>(&mut self, call: &C, make: fn(&Library, &C) -> M) -> M {
        let (right, other) = (make(&self.proved, call), make(&self.portable, call));
        if right != other {
            println!(
                "the libraries differ at seed {}\ncall: {call:x?}\nproved: {right:x?}\nportable: {other:x?}",
                self.seed
            );
            exit(1);
        }
        self.calls += 1;
        right
    }

    fn note(&mut self, what: String) {
        *self.came.entry(what).or_default() += 1;
    }
}

impl Calls for Both {
    fn open(&mut self, call: &Open) -> (Written, Vec<u32>) {
        let asked = self.made(&call.plan, lending::least_output);
        self.note(named(asked.answer.refused, "output asked for"));
        let made = self.made(call, lending::open);
        self.note(named(made.answer.refused, "opened"));
        (made.answer, made.at_exit(0).to_vec())
    }

    fn turn(&mut self, call: &Turn) -> (Turned, Vec<u32>, Vec<u32>) {
        let made = self.made(call, lending::turn);
        let served = ["done", "spent", "full", ""][made.answer.ending as usize];
        self.note(named(made.answer.refused, served));
        (made.answer, made.at_exit(0).to_vec(), made.at_exit(1).to_vec())
    }

    fn merge(&mut self, call: &Merge) -> (Written, Vec<u32>) {
        let made = self.made(call, lending::merge);
        self.note(named(made.answer.refused, "merged"));
        (made.answer, made.at_exit(0).to_vec())
    }

    fn report(&mut self, call: &Report) -> Written {
        let made = self.made(call, lending::report);
        self.note(named(made.answer.refused, "reported"));
        made.answer
    }

    fn make(&mut self, call: &Make) -> libraries::Made {
        let made = self.made(call, lending::make);
        self.note(named(made.answer.refused, "made"));
        made.answer
    }

    fn view(&mut self, call: &View) -> (Viewed, [Vec<u32>; 3]) {
        let made = self.made(call, lending::view);
        self.note(named(made.answer.refused, "viewed"));
        (made.answer, [0, 1, 2].map(|at| made.at_exit(at).to_vec()))
    }

    fn grow(&mut self, call: &Grow) -> (Viewed, [Vec<u32>; 3]) {
        let made = self.made(call, lending::grow);
        self.note(named(made.answer.refused, "grown"));
        (made.answer, [0, 1, 2].map(|at| made.at_exit(at).to_vec()))
    }

    fn join(&mut self, call: &Join) -> Queued {
        let answer = self.made(call, lending::join).made.answer;
        self.note(named(answer.refused, "joined"));
        answer
    }

    fn serve(&mut self, call: &Serve) -> Service {
        let answer = self.made(call, lending::serve).made.answer;
        let served = ["served, done", "served, spent", "served, full", ""][answer.ending as usize];
        self.note(named(answer.refused, served));
        answer
    }

    fn top_up(&mut self, call: &TopUp) -> Queued {
        let answer = self.made(call, lending::top_up).made.answer;
        self.note(named(answer.refused, "topped up"));
        answer
    }

    fn number(&mut self, call: &Number) -> (Numbered, Vec<u8>, Vec<u32>) {
        let made = self.made(call, lending::number);
        self.note(named(made.made.answer.refused, "numbered"));
        let cuts = made.made.at_exit(0).to_vec();
        (made.made.answer, made.bytes.into_iter().next().unwrap_or_default(), cuts)
    }

    fn find(&mut self, call: &Find) -> Found {
        let answer = self.made(call, lending::find).made.answer;
        let served = ["absent", "found"][answer.present as usize];
        self.note(named(answer.refused, served));
        answer
    }

    fn string(&mut self, call: &StringOf) -> Bounds {
        let answer = self.made(call, lending::string).made.answer;
        let served = ["past the last", "a string"][answer.present as usize];
        self.note(named(answer.refused, served));
        answer
    }
}

/// Calls with up to three things changed in each; some of them are still right.
pub fn damaged(to: &mut impl Calls, random: &mut Random, query: &Query, each: usize) {
    for _ in 0..each {
        let mut call = calls::open(random, query);
        (0..random.below(4)).for_each(|_| damage::open(random, query, &mut call));
        to.open(&call);
    }
    for _ in 0..2 * each {
        let mut call = calls::turn(random, query);
        (0..random.below(4)).for_each(|_| damage::turn(random, query, &mut call));
        to.turn(&call);
    }
    for _ in 0..each {
        let mut call = calls::merge(random, query);
        (0..random.below(4)).for_each(|_| damage::merge(random, query, &mut call));
        to.merge(&call);
    }
}

/// Reports on registers, with up to three things changed in each; some of them are still right.
pub fn reported(to: &mut impl Calls, random: &mut Random, each: usize) {
    for _ in 0..each {
        let mut call = calls::report(random);
        (0..random.below(4)).for_each(|_| damage::report(random, &mut call));
        to.report(&call);
    }
}

/// Up to so many words of any kind, often small ones.
fn any_words(random: &mut Random, most: usize) -> Vec<u32> {
    let any = |random: &mut Random| match random.small(4) {
        0 => random.word(),
        1 => marked(random.small(16), random.small(20)),
        2 => term(random.small(4), random.small(4)),
        _ => random.small(8),
    };
    (0..random.below(most + 1)).map(|_| any(random)).collect()
}

/// Calls whose buffers have nothing to do with each other.
pub fn made_up(to: &mut impl Calls, random: &mut Random, query: &Query) {
    let tables = match random.chance(70) {
        true => query.tables.clone(),
        false => Tables {
            rows: any_words(random, 16),
            pos: any_words(random, 4),
            osp: any_words(random, 4),
        },
    };
    let plan = if random.chance(50) {
        query.words.clone()
    } else {
        any_words(random, 14)
    };
    let (state, given) = (any_words(random, 13), random.below(13));
    let survey = random.pick(&[0, 1, 7, MOST_COUNT, MOST_COUNT + 1, u32::MAX]);
    to.open(&Open {
        tables: tables.clone(),
        survey,
        plan: plan.clone(),
        state: state.clone(),
    });
    let (threshold, output, quantum) = (any_words(random, 4), any_words(random, 70), random.word() % 2_000_000);
    to.turn(&Turn {
        tables,
        survey,
        plan: plan.clone(),
        state,
        given,
        quantum,
        threshold,
        output,
    });
    let (kept, list) = (any_words(random, 40), any_words(random, 30));
    to.merge(&Merge {
        plan,
        kept,
        given: random.below(42),
        list,
    });
}

/// Uploads of at most so many rows: as they come, damaged, and made up.
pub fn uploaded(to: &mut impl Calls, random: &mut Random, most: usize) {
    let words = uploads::upload(random, most);
    let mut call = uploads::make(random, words);
    to.make(&call);
    for _ in 0..random.pick(&[1, 1, 2]) {
        uploads::damage(random, &mut call);
        to.make(&call);
    }
    to.make(&uploads::made_up(random));
}

/// Views of woods of at most so many rows: as they come, damaged, and made up. What a served one writes passes an opening's tests of tables.
pub fn viewed(to: &mut impl Calls, random: &mut Random, most: usize) {
    let mut call = views::view(random, most);
    let (answer, [rows, pos, osp]) = to.view(&call);
    let tables = Tables {
        rows: rows[..answer.rows_words].to_vec(),
        pos: pos[..answer.pos_words].to_vec(),
        osp: osp[..answer.osp_words].to_vec(),
    };
    let plan = plans::plan(random, &tables).words();
    let (opened, _) = to.open(&Open {
        tables,
        survey: woods::survey(random),
        plan,
        state: random.words(11),
    });
    assert!(
        opened.refused == 0 || opened.refused > 4 && opened.refused != 23,
        "a view is refused by {}",
        opened.refused
    );
    for _ in 0..random.pick(&[1, 2, 2, 3]) {
        views::damage(random, &mut call);
        to.view(&call);
    }
    to.view(&views::made_up(random));
}

/// Woods of at most so many stems: grown, and damaged calls. What a served one writes passes an opening's tests of tables.
pub fn grown(to: &mut impl Calls, random: &mut Random, most: u32) {
    let mut call = growing::grow(random, most);
    let (answer, [rows, pos, osp]) = to.grow(&call);
    let tables = Tables {
        rows: rows[..answer.rows_words].to_vec(),
        pos: pos[..answer.pos_words].to_vec(),
        osp: osp[..answer.osp_words].to_vec(),
    };
    let (opened, _) = to.open(&Open {
        tables,
        survey: woods::survey(random),
        plan: vec![],
        state: vec![],
    });
    assert!(opened.refused == 5, "a grown wood is refused by {}", opened.refused);
    for _ in 0..random.pick(&[1, 2, 2, 3]) {
        growing::damage(random, &mut call);
        to.grow(&call);
    }
}

/// Calls of queues of at most so many entries, with up to three things changed in each; some of them are still right.
pub fn queued(to: &mut impl Calls, random: &mut Random, most: usize) {
    let queries = queues::queries(random, 3);
    let mut call = queues::join(random, &queries, most);
    (0..random.below(4)).for_each(|_| queues::join_damage(random, &queries, &mut call));
    to.join(&call);
    for _ in 0..3 {
        let lists = queues::lists(random, &queries, most);
        let mut call = queues::serve(random, &queries, lists);
        (0..random.below(4)).for_each(|_| queues::serve_damage(random, &queries, &mut call));
        to.serve(&call);
    }
    for _ in 0..2 {
        let lists = queues::lists(random, &queries, most);
        let mut call = queues::top_up(random, lists);
        (0..random.below(4)).for_each(|_| queues::top_up_damage(random, &mut call));
        to.top_up(&call);
    }
}

/// An upload with buffers that are long enough whatever it makes.
fn with_room(upload: Vec<u32>) -> Make {
    let rows = upload.len() / 4;
    Make {
        rows: vec![5; 4 * rows],
        pos: vec![5; rows],
        osp: vec![5; rows],
        report: vec![5; 2 * rows],
        upload,
    }
}

/// The largest uploads, and one row more than there may be; the longest report.
fn largest_uploads(to: &mut impl Calls) {
    let random = &mut Random::new(65_536);
    for many in [65_535, 65_536, 65_537] {
        to.make(&with_room(uploads::shuffled(random, many)));
    }
    let mut again = uploads::shuffled(random, 30_000);
    again.extend_from_within(..);
    again.extend([variable(0); 4].repeat(5_536));
    to.make(&with_room(again));
    to.make(&with_room([number(2026), name(1), name(10), name(100)].repeat(65_536)));
}

/// The largest woods, and one row more than there may be.
fn largest(to: &mut impl Calls) {
    let random = &mut Random::new(65_536);
    for stems in [32_767, 32_768, 32_769] {
        let tables = woods::stems(random, stems);
        let words = plans::plan(random, &tables).words();
        let mut call = Open {
            tables,
            survey: stems,
            plan: words,
            state: vec![0; 11],
        };
        let (opened, state) = to.open(&call);
        let (tables, plan) = (call.tables.clone(), call.plan.clone());
        let output = vec![0; 4096];
        to.turn(&Turn {
            tables,
            survey: stems,
            plan,
            state,
            given: opened.words,
            quantum: 1_000_000,
            threshold: vec![],
            output,
        });
        let last = call.tables.pos.len() - 1;
        call.tables.osp.swap(0, last);
        to.open(&call);
    }
}

/// Views of the largest woods: of nothing, of a stand, of all stands, and of single stems; and one row more than there may be.
fn largest_views(to: &mut impl Calls) {
    let random = &mut Random::new(65_536);
    for stems in [32_768, 32_769] {
        let tables = woods::stems(random, stems);
        let stands = (100..120).map(name).collect();
        for grant in [vec![], vec![name(107)], stands, vec![name(1_000_000), name(1_032_767)]] {
            let many = tables.pos.len();
            to.view(&View {
                tables: tables.clone(),
                grant,
                membership: name(10),
                rows: vec![5; 4 * many],
                pos: vec![5; many],
                osp: vec![5; many],
            });
        }
    }
}

/// The largest woods that are grown, and one stem more than there may be.
fn largest_grown(to: &mut impl Calls) {
    let random = &mut Random::new(65_536);
    for stems in [32_767, 32_768, 32_769] {
        let call = growing::lend(random, 1, stems, 2026);
        let (answer, _) = to.grow(&call);
        assert!(
            answer.refused == if stems > 32_768 { 24 } else { 0 },
            "32,768 stems are grown"
        );
    }
}

/// Every number of a refusal and every ending must come so often in a run of the usual size.
const OFTEN: u64 = 100;

pub fn compare(file: &str, seeds: Range<u64>) {
    let (proved, portable) = (Library::proved(), Library::loaded(file));
    let mut both = Both {
        proved,
        portable,
        came: BTreeMap::new(),
        calls: 0,
        seed: 0,
    };
    let usual = seeds.end - seeds.start >= 1_000;
    for seed in seeds.clone() {
        both.seed = seed;
        let random = &mut Random::new(seed);
        let query = plans::short_query(random);
        damaged(&mut both, random, &query, 4);
        made_up(&mut both, random, &query);
        reported(&mut both, &mut Random::new(seed ^ 0x0D15_0000), 2);
        uploaded(&mut both, &mut Random::new(seed ^ 0x0AD5_0000), 25);
        queued(&mut both, &mut Random::new(seed ^ 0x0E0E_0000), MOST);
        viewed(&mut both, &mut Random::new(seed ^ 0x0ADE_0000), 40);
        grown(&mut both, &mut Random::new(seed ^ 0x06A0_0000), 40);
        numbered(&mut both, &mut Random::new(seed ^ 0x0D1C_0000), 40);
    }
    let (apart, histories) = (both.calls, seeds.end - seeds.start);
    for seed in seeds {
        both.seed = seed;
        let random = &mut Random::new(seed ^ 0x5EED_0000);
        let query = plans::short_query(random);
        let quantum = query.run.steps().div_ceil(random.pick(&[1, 2, 4, 16]));
        histories::play(&mut both, random, &query, quantum, 60);
    }
    largest(&mut both);
    largest_uploads(&mut both);
    largest_views(&mut both);
    largest_grown(&mut both);
    many(&mut both, 60_000);
    println!("{:?}", both.came);
    let served = [
        "opened",
        "done",
        "spent",
        "full",
        "merged",
        "reported",
        "made",
        "joined",
        "served, done",
        "served, spent",
        "topped up",
        "viewed",
        "grown",
        "numbered",
        "found",
        "absent",
        "a string",
        "past the last",
    ];
    let whats = (1..=28).map(|number| named(number, "")).chain(served.map(String::from));
    let rare: Vec<String> = whats
        .filter(|what| both.came.get(what).copied().unwrap_or(0) < OFTEN)
        .collect();
    if usual && !rare.is_empty() {
        println!("these came less than {OFTEN} times: {}", rare.join(", "));
        exit(1);
    }
    let more = both.calls - apart;
    println!("{apart} calls, {histories} histories of {more} more: both libraries answer alike, word for word");
}
