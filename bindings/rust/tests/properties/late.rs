//! Turns that come back out of order: in whatever order and grouping the same turns' lists are merged, each once, the end is the same. Of
//! best-of lists it is where no two rows are equal in all keys, and in the order of turns always.

use crate::checking::{check_merge, for_each_seed, whole_list, Tally};
use crate::client::{built, survey};
use crate::evaluation::calls::{Merge, Query};
use crate::evaluation::lists::are_apart;
use crate::evaluation::plan::Ending;
use crate::inputs::random::Random;
use crate::inputs::{calls, plans};
use sotjarn::{Kept, Late, Plan};

/// A threshold that may be sent: none, or the last row of a full list, merged out of some of these in any order, none of them twice.
fn permitted(random: &mut Random, plan: &Plan, lists: &[Vec<u32>]) -> Vec<u32> {
    let mut kept = Kept::new(plan);
    if random.chance(60) {
        for list in random.some(lists, 0, lists.len()) {
            kept.take(&list).expect("the list is taken");
        }
    }
    kept.threshold().to_vec()
}

/// The lists of a query's turns, cut anywhere, to its end.
fn turns(random: &mut Random, query: &Query, plan: &Plan) -> Vec<Vec<u32>> {
    let parts = random.pick(&[1, 2, 4, 8]);
    let most = query.run.steps().div_ceil(parts);
    let mut made = sotjarn::Query::open(survey(query), plan.words()).expect("the opening is accepted");
    let mut lists = Vec::new();
    while !made.is_done() {
        let threshold = permitted(random, plan, &lists);
        let mut turns = made.turns(random.between(1, most) as u32, plan.least_output() + random.below(30));
        turns.set_threshold(&threshold);
        let turn = turns.next().expect("the query goes on").expect("the turn is served");
        lists.push(turn.list);
    }
    lists
}

/// A merge of two lists, with any words behind the kept one; none where it is refused by 13.
fn both(tally: &Tally, random: &mut Random, query: &Query, left: Vec<u32>, right: Vec<u32>) -> Option<Vec<u32>> {
    let (given, room) = (left.len(), right.len() + random.below(3));
    let call = Merge {
        plan: query.words.clone(),
        kept: [left, random.words(room)].concat(),
        given,
        list: right,
    };
    let (words, kept) = check_merge(tally, &call)?;
    Some(kept[..words].to_vec())
}

/// Whether an empty list may be merged as a turn's: registers are all there, and may be none in a kept list alone.
fn may_be_lent_empty(query: &Query) -> bool {
    matches!(query.plan.ending, Ending::Top(..) | Ending::Group(..))
}

/// A tree of merges over these lists from left to right, with empty lists here and there; none where a merge is refused.
fn tree(tally: &Tally, random: &mut Random, query: &Query, lists: &[Vec<u32>]) -> Option<Vec<u32>> {
    let given = match lists {
        [] => Vec::new(),
        [list] => list.clone(),
        _ => {
            let at = random.between(1, lists.len() - 1);
            let (left, right) = (
                tree(tally, random, query, &lists[..at])?,
                tree(tally, random, query, &lists[at..])?,
            );
            both(tally, random, query, left, right)?
        }
    };
    match random.small(10) {
        0 if !given.is_empty() || may_be_lent_empty(query) => both(tally, random, query, Vec::new(), given),
        1 if may_be_lent_empty(query) => both(tally, random, query, given, Vec::new()),
        _ => Some(given),
    }
}

/// These in another order.
fn shuffled<T: Clone>(random: &mut Random, of: &[T]) -> Vec<T> {
    random.some(of, of.len(), of.len())
}

/// The rows of lists.
fn rows<'a>(query: &Query, lists: &'a [Vec<u32>]) -> Vec<&'a [u32]> {
    lists.iter().flat_map(|list| list.chunks(query.plan.width())).collect()
}

/// The keys of a list's rows.
fn keys(query: &Query, list: &[u32]) -> Vec<Vec<(i64, i64)>> {
    list.chunks(query.plan.width()).map(|row| query.plan.keys_of(row)).collect()
}

/// Whether these lists may be merged in any order.
fn in_any_order(query: &Query, lists: &[Vec<u32>]) -> bool {
    match query.plan.ending {
        Ending::Rows(_) => false,
        Ending::Top(..) => are_apart(&query.plan, &rows(query, lists)),
        Ending::Group(..) | Ending::Registers(_) => true,
    }
}

fn kind(query: &Query) -> &'static str {
    match query.plan.ending {
        Ending::Rows(_) => "rows",
        Ending::Top(..) => "best-of",
        Ending::Group(..) => "groups",
        Ending::Registers(_) => "registers",
    }
}

#[test]
fn every_tree_over_all_turns_gives_the_uncut_run() {
    let (tally, merges) = (Tally::default(), Tally::default());
    for_each_seed(3000, |random| {
        let query = plans::short_query(random);
        if matches!(query.plan.ending, Ending::Rows(_)) {
            return;
        }
        let (plan, whole) = (built(&query.plan), whole_list(&query));
        let lists = turns(random, &query, &plan);
        assert_eq!(tree(&merges, random, &query, &lists).as_ref(), Some(&whole));

        let other = shuffled(random, &lists);
        let end = tree(&merges, random, &query, &other).expect("no merge of short queries is refused");
        let many = if lists.len() > 2 { "many" } else { "few" };
        if in_any_order(&query, &lists) {
            assert_eq!(end, whole);
            tally.note::<()>(&Ok(()), &format!("{} of {many} turns", kind(&query)));
        } else {
            // Rows that are equal in all keys: the best are as good, and may be others.
            assert_eq!(keys(&query, &end), keys(&query, &whole));
            let same = if end == whole { "the same" } else { "another" };
            tally.note::<()>(&Ok(()), &format!("equal keys, {same} end"));
        }
    });
    tally.came(
        &["groups of many turns", "registers of many turns", "best-of of many turns"],
        200,
    );
    tally.came(&["equal keys, another end"], 20);
    merges.came(&["merged"], 5000);
    merges.came(&["nothing merged"], 100);
}

/// Groups' records with few rows, so that none but their sums leaves its range.
fn with_few_rows(query: &Query, list: &mut [u32]) {
    for record in list.chunks_mut(query.plan.width()) {
        let totals = record.len() - 8;
        for count in record[totals..totals + 4].chunks_mut(2) {
            let few = if count[1] > 0 { 9 } else { count[0].min(9) };
            count.copy_from_slice(&[few, 0]);
        }
    }
}

#[test]
fn two_trees_over_the_same_lists_give_the_same_words() {
    let (tally, merges) = (Tally::default(), Tally::default());
    for_each_seed(4000, |random| {
        let query = plans::short_query(random);
        if matches!(query.plan.ending, Ending::Rows(_)) {
            return;
        }
        let many = random.between(2, 6);
        let mut lists = calls::lists(random, &query, many);
        if matches!(query.plan.ending, Ending::Group(..)) && random.chance(70) {
            lists.iter_mut().for_each(|list| with_few_rows(&query, list));
        }
        // In one order, whatever the grouping.
        let (one, other) = (tree(&merges, random, &query, &lists), tree(&merges, random, &query, &lists));
        assert!(one.is_none() || other.is_none() || one == other);
        // In any order.
        let turned = shuffled(random, &lists);
        let last = tree(&merges, random, &query, &turned);
        if in_any_order(&query, &lists) {
            assert!(one.is_none() || last.is_none() || one == last);
            let how = match (&one, &last) {
                (Some(_), Some(_)) => "the same",
                (None, None) => "both refused",
                _ => "one refused",
            };
            tally.note::<()>(&Ok(()), &format!("{}: {how}", kind(&query)));
        }
    });
    tally.came(&["groups: the same", "groups: both refused", "registers: the same"], 100);
    tally.came(&["groups: one refused", "best-of: the same"], 20);
    merges.came(&["merged", "refused by 13", "nothing merged"], 500);
}

/// A piece of a query that comes in: the turns that it is of, and their list, merged or joined in order.
type Piece = (usize, usize, Vec<u32>);

/// The turns in pieces, most of them of one turn.
fn pieces(random: &mut Random, plan: &Plan, lists: &[Vec<u32>]) -> Vec<Piece> {
    let (mut pieces, mut at) = (Vec::new(), 0);
    while at < lists.len() {
        let end = (at + random.pick(&[1, 1, 1, 2, 3])).min(lists.len());
        let mut kept = Kept::new(plan);
        lists[at..end]
            .iter()
            .for_each(|list| kept.take(list).expect("the list is taken"));
        pieces.push((at, end, kept.words().to_vec()));
        at = end;
    }
    pieces
}

/// Receives a piece, by the call for one turn where it is of one.
fn receive(late: &mut Late, (at, end, list): &Piece) -> bool {
    let received = match end - at {
        1 => late.receive(*at, list),
        _ => late.receive_merged(*at..*end, list),
    };
    received.expect("no list of short queries is refused")
}

#[test]
fn the_client_takes_lists_in_any_order() {
    let tally = Tally::default();
    for_each_seed(3000, |random| {
        let query = plans::short_query(random);
        let plan = built(&query.plan);
        let lists = turns(random, &query, &plan);
        let sent = pieces(random, &plan, &lists);
        let distinct = in_any_order(&query, &lists) && random.chance(70);
        let mut late = if distinct {
            Late::with_distinct_keys(&plan)
        } else {
            Late::new(&plan)
        };
        let mut came: Vec<Piece> = Vec::new();
        for piece in shuffled(random, &sent) {
            assert!(receive(&mut late, &piece));
            came.push(piece);
            // One that came already, or has a turn that came, is thrown away.
            let (at, end, list) = random.pick(&came);
            let before = late.clone();
            assert!(!receive(&mut late, &(at, end, list.clone())));
            assert!(!receive(&mut late, &(at.saturating_sub(1), end + 2, list)));
            assert_eq!(late, before);
            let missing = sent
                .iter()
                .find(|piece| !came.contains(piece))
                .map_or(lists.len(), |piece| piece.0);
            assert_eq!(late.in_a_row(), missing);
        }
        assert_eq!(late.kept().words(), whole_list(&query));
        let how = if distinct { "at once" } else { "by the ending" };
        tally.note::<()>(&Ok(()), &format!("{}, {how}", kind(&query)));
    });
    tally.came(
        &[
            "rows, by the ending",
            "best-of, by the ending",
            "best-of, at once",
            "groups, by the ending",
        ],
        200,
    );
}

#[test]
fn a_refused_list_leaves_a_late_client_as_it_was() {
    for_each_seed(1000, |random| {
        let query = plans::short_query(random);
        let plan = built(&query.plan);
        let lists = turns(random, &query, &plan);
        let mut late = Late::new(&plan);
        for (turn, list) in shuffled(random, &lists.iter().enumerate().collect::<Vec<_>>()) {
            let mut damaged = list.clone();
            damaged.splice(..0, vec![crate::evaluation::words::UNBOUND + 1; plan.width()]);
            let before = late.clone();
            assert_eq!(late.receive(turn, &damaged), Err(sotjarn::Refusal::MergedLists));
            assert_eq!(late, before);
            assert_eq!(late.receive(turn, list), Ok(true));
        }
        assert_eq!(late.kept().words(), whole_list(&query));
    });
}
