//! A queue of 32 owners under a long list of calls: random plans, joins, top-ups and quanta, refused calls among them. Each owner's finished
//! list is compared with that of the same query run alone, its steps with those of that run, no more where it was sent a threshold, what is left to it
//! with what was granted, and its waits with the promise: as many served turns as its place from the front, and no more.

use std::collections::BTreeMap;
use std::process::exit;

use crate::evaluation::calls::Query;
use crate::evaluation::plan::Ending;
use crate::evaluation::tables::Tables;
use crate::inputs::queues::{queries, queries_over, STEPS};
use crate::inputs::random::Random;
use crate::libraries::{Entry, Lent, LentLists, Library, Queued, Service};

/// Owners that come and go, entries that there may be, and plans over one wood; calls before the next wood.
const OWNERS: usize = 40;
const MOST: usize = 32;
const PLANS: usize = 24;
const CALLS_A_WOOD: u64 = 5_000;

const DONE: u32 = 0;
const FULL: u32 = 2;
const REFUSED: u32 = 3;
const QUANTUM_WRONG: u32 = 8;
const ENTRIES_WRONG: u32 = 17;
const NO_ROOM: u32 = 18;
const EMPTY_LINE: u32 = 19;

const NO_ENTRY: Entry = Entry {
    allowance: 0,
    owner: 0,
    plan_words: 0,
    state_words: 0,
    plan: [0; 256],
    state: [0; 11],
};

/// Ends the program where something is not as it must be.
fn expect(right: bool, what: &str) {
    if !right {
        println!("not as it must be: {what}");
        exit(1);
    }
}

fn lent(query: &Query) -> Lent<'_> {
    Lent {
        rows: &query.tables.rows,
        pos: &query.tables.pos,
        osp: &query.tables.osp,
        survey: query.survey,
        plan: &query.words,
    }
}

/// A turn's list taken into what an owner has: joined, or merged by the library.
fn take(library: &Library, query: &Query, kept: &mut Vec<u32>, list: &[u32]) {
    if matches!(query.plan.ending, Ending::Rows(_)) {
        return kept.extend_from_slice(list);
    }
    let held = kept.len();
    kept.resize(held + list.len(), 0);
    let merged = library.merge(&query.words, kept, held, list);
    expect(merged.refused == 0, "a list is merged");
    kept.truncate(merged.words);
}

/// A query run alone, from its opening to its end: its list, and its steps.
fn alone(library: &Library, query: &Query) -> (Vec<u32>, u64) {
    let (lent, mut state, mut output) = (lent(query), vec![0; 11], vec![0; 64 * query.plan.least_output()]);
    let mut given = library.open(&lent, &mut state).words;
    let (mut kept, mut steps) = (Vec::new(), 0);
    loop {
        let turned = library.turn(&lent, &mut state, given, 1_000_000, &[], &mut output);
        expect(turned.ending != REFUSED, "a query that runs alone is served");
        take(library, query, &mut kept, &output[..turned.list_words]);
        (given, steps) = (turned.state_words, steps + u64::from(turned.steps));
        if turned.ending == DONE {
            return (kept, steps);
        }
    }
}

/// What became of an owner so far. `wait` is there while it is in the line: its place when it came there, and the turns served since.
struct Owner {
    query: usize,
    granted: u64,
    steps: u64,
    sent: bool,
    kept: Vec<u32>,
    wait: Option<(usize, usize)>,
}

/// What was seen, over all woods.
#[derive(Default)]
struct Seen {
    calls: u64,
    came: BTreeMap<&'static str, u64>,
    longest: usize,
    promised: usize,
}

impl Seen {
    fn note(&mut self, what: &'static str) {
        self.calls += 1;
        *self.came.entry(what).or_default() += 1;
    }
}

/// A wood, its queries with what each makes alone, and the queue.
struct Soak<'a> {
    library: &'a Library,
    queries: Vec<Query>,
    alone: Vec<(Vec<u32>, u64)>,
    line: Vec<Entry>,
    line_entries: usize,
    aside: Vec<Entry>,
    aside_entries: usize,
    owners: BTreeMap<u32, Owner>,
}

impl Soak<'_> {
    /// Both lists, as the last call left them.
    fn lists(&mut self) -> LentLists<'_> {
        LentLists {
            line: &mut self.line,
            line_entries: self.line_entries,
            aside: &mut self.aside,
            aside_entries: self.aside_entries,
        }
    }

    fn now(&mut self, queued: &Queued) {
        (self.line_entries, self.aside_entries) = (queued.line_entries, queued.aside_entries);
        expect(
            self.line_entries + self.aside_entries == self.owners.len(),
            "the lists have an entry for each owner",
        );
    }

    /// An owner at the end of the line waits for as many turns as stand before it.
    fn waits(&mut self, owner: u32) {
        let place = self.line_entries - 1;
        expect(self.line[place].owner == owner, "who comes to the line stands at its end");
        self.owners.get_mut(&owner).expect("it has joined").wait = Some((place, 0));
    }

    fn join(&mut self, seen: &mut Seen, random: &mut Random, owner: u32) {
        let at = random.below(self.queries.len());
        let steps = self.queries[at].run.steps() as u64;
        let some = random.between(1, steps as usize) as u64;
        let allowance = random.pick(&[0, 1, 3, some, some, steps, 1 << 40]);
        let (library, query) = (self.library, &self.queries[at]);
        let (words, state) = (lent(query), query.saved(0));
        let lists = LentLists {
            line: &mut self.line,
            line_entries: self.line_entries,
            aside: &mut self.aside,
            aside_entries: self.aside_entries,
        };
        let queued = library.join(&words, lists, owner, allowance, &state);
        let right = match (self.owners.contains_key(&owner), self.owners.len()) {
            (true, _) => ENTRIES_WRONG,
            (false, MOST) => NO_ROOM,
            _ => 0,
        };
        expect(queued.refused == right, "a join is refused as the rules say");
        if right != 0 {
            return seen.note("joins refused");
        }
        seen.note("joins");
        let known = Owner {
            query: at,
            granted: allowance,
            steps: 0,
            sent: false,
            kept: Vec::new(),
            wait: None,
        };
        self.owners.insert(owner, known);
        self.now(&queued);
        if allowance > 0 {
            self.waits(owner);
        }
    }

    fn top_up(&mut self, seen: &mut Seen, random: &mut Random, owner: u32) {
        let amount = random.pick(&[0, 1, 7, 50, 1 << 40]);
        let is_aside = self.aside[..self.aside_entries].iter().any(|entry| entry.owner == owner);
        let library = self.library;
        let queued = library.top_up(self.lists(), owner, amount);
        let right = if is_aside && amount > 0 { 0 } else { ENTRIES_WRONG };
        expect(queued.refused == right, "a top-up is refused as the rules say");
        if right != 0 {
            return seen.note("top-ups refused");
        }
        seen.note("top-ups");
        self.owners.get_mut(&owner).expect("it has joined").granted += amount;
        self.now(&queued);
        self.waits(owner);
    }

    /// The threshold of an owner: the last row of its list, where that is a full best-of list; often none.
    fn threshold(&self, random: &mut Random, owner: &Owner) -> Vec<u32> {
        let query = &self.queries[owner.query];
        let full = matches!(query.plan.ending, Ending::Top(..)) && owner.kept.len() == query.plan.least_output();
        match full && random.chance(70) {
            true => owner.kept[owner.kept.len() - query.plan.width()..].to_vec(),
            false => Vec::new(),
        }
    }

    fn serve(&mut self, seen: &mut Seen, random: &mut Random) {
        let front = (self.line_entries > 0).then(|| self.line[0].owner);
        let known = front.map(|owner| &self.owners[&owner]);
        let threshold = known.map(|owner| self.threshold(random, owner)).unwrap_or_default();
        let asked = known.map_or(1, |owner| self.queries[owner.query].plan.least_output());
        let mut output = vec![0; asked * random.pick(&[1, 1, 2, 8, 64])];
        let few = random.between(1, 40) as u32;
        let quantum = random.pick(&[0, 1, few, few, few, 500, 1_000_000, 1_000_001]);
        let library = self.library;
        let tables = lent(&self.queries[0]);
        let lists = LentLists {
            line: &mut self.line,
            line_entries: self.line_entries,
            aside: &mut self.aside,
            aside_entries: self.aside_entries,
        };
        let served = library.serve(&tables, lists, quantum, &threshold, &mut output);
        if let Some(known) = front.and_then(|owner| self.owners.get_mut(&owner)) {
            known.sent |= !threshold.is_empty();
        }
        let right = match (quantum, front) {
            (0 | 1_000_001, _) => QUANTUM_WRONG,
            (_, None) => EMPTY_LINE,
            _ => 0,
        };
        expect(served.refused == right, "a serve is refused as the rules say");
        match right {
            0 => self.served(seen, front.expect("there is a front"), quantum, &served, &output),
            _ => seen.note("serves refused"),
        }
    }

    /// A served turn of the front entry's owner.
    fn served(&mut self, seen: &mut Seen, owner: u32, quantum: u32, served: &Service, output: &[u32]) {
        expect(served.owner == owner, "the front entry is served");
        let mut known = self.owners.remove(&owner).expect("it has joined");
        let (place, waited) = known.wait.take().expect("it was in the line");
        expect(waited == place, "an owner is served after as many turns as its place was");
        (seen.longest, seen.promised) = (seen.longest.max(waited), seen.promised.max(place));
        let before = known.granted - known.steps;
        known.steps += u64::from(served.steps);
        expect(
            served.left == known.granted - known.steps,
            "what was granted is taken or left",
        );
        expect(
            u64::from(served.steps) <= before.min(u64::from(quantum)),
            "no turn takes more than the quantum or what is left",
        );
        take(
            self.library,
            &self.queries[known.query],
            &mut known.kept,
            &output[..served.list_words],
        );
        for other in self.owners.values_mut() {
            other.wait = other.wait.map(|(place, turns)| (place, turns + 1));
        }
        let (ending, query) = (served.ending, known.query);
        if ending == DONE {
            expect(
                known.kept == self.alone[query].0,
                "the owner's list is that of its query alone",
            );
            let steps = self.alone[query].1;
            expect(
                known.steps == steps || known.sent && known.steps < steps,
                "its steps are those of its query alone, or fewer by a threshold",
            );
        } else {
            self.owners.insert(owner, known);
        }
        self.now(&Queued {
            refused: 0,
            line_entries: served.line_entries,
            aside_entries: served.aside_entries,
        });
        if ending != DONE && served.left > 0 {
            self.waits(owner);
        }
        seen.note(match ending {
            DONE => "turns done",
            FULL => "turns full",
            _ if served.left == 0 => "turns set aside",
            _ => "turns spent",
        });
    }
}

/// A wood of a few stems, grown by the library.
fn grown(library: &Library, random: &mut Random) -> Tables {
    let many = random.between(1, 30);
    let (mut rows, mut pos, mut osp) = (vec![0; 8 * many], vec![0; 2 * many], vec![0; 2 * many]);
    let answer = library.grow(random.word(), many as u32, 2026, &mut rows, &mut pos, &mut osp);
    expect(answer.refused == 0 && answer.rows_words == rows.len(), "a wood is grown");
    Tables { rows, pos, osp }
}

/// One wood: so many calls. Every other wood is grown by the library's call; the rest have rows of any kind and of several years.
fn soak_wood(library: &Library, seen: &mut Seen, random: &mut Random, grow: bool, calls: u64) {
    let queries = match grow {
        true => {
            let tables = grown(library, random);
            queries_over(random, tables, PLANS)
        }
        false => queries(random, PLANS),
    };
    let alone: Vec<_> = queries.iter().map(|query| alone(library, query)).collect();
    expect(
        alone.iter().all(|(_, steps)| *steps < STEPS as u64),
        "a query alone takes the steps of its run",
    );
    let mut soak = Soak {
        library,
        queries,
        alone,
        line: vec![NO_ENTRY; MOST],
        line_entries: 0,
        aside: vec![NO_ENTRY; MOST],
        aside_entries: 0,
        owners: BTreeMap::new(),
    };
    let names: Vec<u32> = (0..OWNERS).map(|number| (number as u32).wrapping_mul(0x9E37_79B9)).collect();
    let until = seen.calls + calls;
    // times at which many come, so that all 32 wait, and times at which few do
    while seen.calls < until {
        let joins = if seen.calls % 600 < 250 { 12 } else { 3 };
        let owner = random.pick(&names);
        match random.small(20) {
            0..=1 => soak.top_up(seen, random, owner),
            2..=3 if soak.aside_entries > 0 => {
                let owner = soak.aside[random.below(soak.aside_entries)].owner;
                soak.top_up(seen, random, owner);
            }
            part if part < 4 + joins => soak.join(seen, random, owner),
            _ => soak.serve(seen, random),
        }
    }
}

pub fn soak(file: Option<&str>, calls: u64, first: u64) {
    let library = file.map_or_else(Library::proved, Library::loaded);
    let mut seen = Seen::default();
    let mut seed = first;
    while seen.calls < calls {
        let many = CALLS_A_WOOD.min(calls - seen.calls);
        soak_wood(&library, &mut seen, &mut Random::new(seed ^ 0x50A6_0000), seed % 2 == 0, many);
        seed += 1;
    }
    println!("{:?}", seen.came);
    let rare = [
        "joins",
        "top-ups",
        "turns done",
        "turns spent",
        "turns full",
        "turns set aside",
        "joins refused",
        "serves refused",
    ];
    let rare: Vec<&str> = rare
        .into_iter()
        .filter(|what| seen.came.get(what).copied().unwrap_or(0) < 100)
        .collect();
    if calls >= 100_000 && (!rare.is_empty() || seen.longest < MOST - 1) {
        println!("too seldom: {}; the longest wait was {} turns", rare.join(", "), seen.longest);
        exit(1);
    }
    let (finished, longest, promised) = (seen.came.get("turns done").unwrap_or(&0), seen.longest, seen.promised);
    println!(
        "{} calls, {finished} queries finished as alone; the longest wait was {longest} turns, and {promised} were promised",
        seen.calls
    );
}
