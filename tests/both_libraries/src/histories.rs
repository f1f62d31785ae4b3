//! Whole histories of a query: opened, cut at random, each list merged or left, with repeated and refused calls in between.

use crate::evaluation::calls::{Merge, Open, Query, Turn};
use crate::evaluation::growing::Grow;
use crate::evaluation::plan::Ending;
use crate::evaluation::queues::{Join, Serve, TopUp};
use crate::evaluation::registers::Report;
use crate::evaluation::uploads::Make;
use crate::evaluation::views::View;
use crate::inputs::random::Random;
use crate::inputs::{calls, damage};
use crate::libraries::{Bounds, Found, Made, Numbered, Queued, Service, Turned, Viewed, Written};
use crate::strings::{Find, Number, StringOf};

/// Where the calls of a history go: each is made, and answered with the written buffers at exit.
pub trait Calls {
    fn open(&mut self, call: &Open) -> (Written, Vec<u32>);
    fn turn(&mut self, call: &Turn) -> (Turned, Vec<u32>, Vec<u32>);
    fn merge(&mut self, call: &Merge) -> (Written, Vec<u32>);
    fn report(&mut self, call: &Report) -> Written;
    fn make(&mut self, call: &Make) -> Made;
    fn view(&mut self, call: &View) -> (Viewed, [Vec<u32>; 3]);
    fn grow(&mut self, call: &Grow) -> (Viewed, [Vec<u32>; 3]);
    fn join(&mut self, call: &Join) -> Queued;
    fn serve(&mut self, call: &Serve) -> Service;
    fn top_up(&mut self, call: &TopUp) -> Queued;
    /// With the bytes and the ends of the dictionary.
    fn number(&mut self, call: &Number) -> (Numbered, Vec<u8>, Vec<u32>);
    fn find(&mut self, call: &Find) -> Found;
    fn string(&mut self, call: &StringOf) -> Bounds;
}

const DONE: u32 = 0;
const REFUSED: u32 = 3;

/// Takes a turn's list into the kept one where the plan's lists are merged; answers the words kept.
fn take(to: &mut impl Calls, random: &mut Random, query: &Query, kept: &mut Vec<u32>, given: usize, list: &[u32]) -> usize {
    let mut call = Merge {
        plan: query.words.clone(),
        kept: kept.clone(),
        given,
        list: list.to_vec(),
    };
    if random.chance(10) {
        let mut damaged = call.clone();
        damage::merge(random, query, &mut damaged);
        to.merge(&damaged);
    }
    if call.kept.len() < given + list.len() {
        call.kept.extend(random.words(list.len()));
    }
    let (answer, words) = to.merge(&call);
    *kept = words;
    match answer.refused {
        0 => answer.words,
        _ => given,
    }
}

/// One history, of at most so many turns, with quanta up to `quantum`.
pub fn play(to: &mut impl Calls, random: &mut Random, query: &Query, quantum: usize, most_turns: usize) {
    let best = matches!(query.plan.ending, Ending::Top(..));
    let (opened, mut state) = to.open(&calls::open(random, query));
    let (mut given, mut kept, mut held) = (opened.words, Vec::new(), 0);
    for _ in 0..most_turns {
        let full = best && held > 0 && held == query.plan.least_output() && random.chance(50);
        let threshold = if full {
            kept[held - query.plan.width()..held].to_vec()
        } else {
            Vec::new()
        };
        let quantum = random.between(1, quantum) as u32;
        let output = calls::output(random, query);
        let call = Turn {
            tables: query.tables.clone(),
            survey: query.survey,
            plan: query.words.clone(),
            state: state.clone(),
            given,
            quantum,
            threshold,
            output,
        };
        if random.chance(10) {
            let mut damaged = call.clone();
            damage::turn(random, query, &mut damaged);
            to.turn(&damaged);
        }
        let (turned, left, output) = to.turn(&call);
        assert!(
            turned.ending != REFUSED,
            "a turn of a history is refused by {}",
            turned.refused
        );
        held = take(to, random, query, &mut kept, held, &output[..turned.list_words]);
        if turned.ending == DONE {
            return;
        }
        if random.chance(95) {
            (state, given) = (left, turned.state_words);
        }
    }
}
