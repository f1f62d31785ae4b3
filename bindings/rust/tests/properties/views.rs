//! What an adviser may see: good and damaged calls, large ones, queries over views, and woods that differ in hidden rows alone.

use crate::checking::{cut, for_each_seed, Tally};
use crate::evaluation::calls as queries;
use crate::evaluation::tables::{Row, Tables};
use crate::evaluation::views::{self as evaluation, hidden_alone, visible, View};
use crate::evaluation::words::*;
use crate::guarded;
use crate::inputs::random::Random;
use crate::inputs::views::{damage, grant, lend, made_up, membership, other_tables, view};
use crate::inputs::{calls, plans, woods};

/// A call; what it left if it was served.
fn check_view(tally: &Tally, call: &View) -> Option<View> {
    let right = evaluation::view(call);
    let made = guarded::view(call);
    assert!(made == right, "right: {right:x?}\nmade: {made:x?}\n{call:x?}");
    tally.note(&right.0, "viewed");
    right.0.ok().map(|_| right.1)
}

/// The tables that a served call wrote.
fn view_of(tally: &Tally, random: &mut Random, tables: &Tables, grant: &[u32], membership: u32) -> Tables {
    let call = lend(random, tables.clone(), grant.to_vec(), membership);
    let many = visible(tables, grant, membership).len();
    let left = check_view(tally, &call).expect("the view is written");
    Tables {
        rows: left.rows[..4 * many].to_vec(),
        pos: left.pos[..many].to_vec(),
        osp: left.osp[..many].to_vec(),
    }
}

#[test]
fn views_are_written_as_the_rules_say() {
    let tally = Tally::default();
    for_each_seed(6000, |random| {
        for most in [4, 12, 40, 120] {
            let call = view(random, most);
            let left = check_view(&tally, &call).expect("the view is written");
            let many = visible(&call.tables, &call.grant, call.membership).len();
            let whole = many == call.tables.pos.len();
            tally.note::<()>(
                &Ok(()),
                if many == 0 {
                    "nothing seen"
                } else if whole {
                    "all seen"
                } else {
                    "some seen"
                },
            );
            let seen = Tables {
                rows: left.rows[..4 * many].to_vec(),
                pos: left.pos[..many].to_vec(),
                osp: left.osp[..many].to_vec(),
            };
            assert!(seen.orders().is_ok(), "the tests of tables pass");
        }
    });
    tally.came(&["viewed", "some seen"], 5_000);
    tally.came(&["nothing seen", "all seen"], 1_000);
}

#[test]
fn damaged_views_are_refused_by_the_first_test_that_fails() {
    let tally = Tally::default();
    for_each_seed(6000, |random| {
        for _ in 0..5 {
            let mut call = view(random, 20);
            (0..random.pick(&[1, 1, 1, 2])).for_each(|_| damage(random, &mut call));
            check_view(&tally, &call);
        }
        check_view(&tally, &made_up(random));
    });
    let refused = [
        "refused by 1",
        "refused by 2",
        "refused by 23",
        "refused by 3",
        "refused by 4",
        "refused by 20",
        "refused by 21",
    ];
    tally.came(&refused, 500);
    tally.came(&["viewed"], 1_000);
}

#[test]
fn each_buffer_of_exactly_its_words_is_enough_and_one_less_is_not() {
    let tally = Tally::default();
    for_each_seed(2000, |random| {
        let mut call = view(random, 25);
        let many = visible(&call.tables, &call.grant, call.membership).len();
        call.rows.truncate(4 * many);
        call.pos.truncate(many);
        call.osp.truncate(many);
        check_view(&tally, &call).expect("exact lengths suffice");
        for buffer in 0..3 {
            let mut short = call.clone();
            let words = [&mut short.rows, &mut short.pos, &mut short.osp].into_iter().nth(buffer);
            if words.expect("there are three").pop().is_some() {
                assert_eq!(check_view(&tally, &short), None);
                short.grant.push(number(1));
                assert_eq!(evaluation::view(&short).0, Err(20), "20 comes before 21");
                check_view(&tally, &short);
            }
        }
    });
    tally.came(&["viewed", "refused by 20", "refused by 21"], 1000);
}

/// The adviser's queries: each cut of them over the view is the uncut run over the visible rows, by the evaluation.
#[test]
fn queries_over_a_view_are_those_over_the_visible_rows() {
    let tally = Tally::default();
    for_each_seed(2500, |random| {
        let tables = woods::wood(random, 60);
        let (grant, membership) = (grant(random, &tables), membership(random, &tables));
        let seen = view_of(&tally, random, &tables, &grant, membership);
        let words = plans::plan(random, &tables).words();
        let rows = Tables::of(visible(&tables, &grant, membership));
        if let Ok(Some(mut query)) = queries::query(&rows, &words, 3_000) {
            query.survey = woods::survey(random); // the adviser's own
            assert!(query.tables == seen, "the view is the tables of the visible rows");
            let steps = query.run.steps();
            cut(&tally, random, &query, steps.div_ceil(2), true);
        }
    });
    tally.came(&["done", "spent", "merged"], 500);
}

/// Pairs of woods: where each row that stands in one alone is hidden there, the adviser gets the same tables, and so the same from every
/// opening and turn, in turns that go to and fro between them; where one of these rows is visible, the tables differ.
#[test]
fn woods_that_differ_in_hidden_rows_alone_are_the_same_to_an_adviser() {
    let tally = Tally::default();
    for_each_seed(12_000, |random| {
        let one = woods::wood(random, 40);
        let other = other_tables(random, &one);
        let (grant, membership) = (grant(random, &one), membership(random, &one));
        let hidden = hidden_alone(&one, &other, &grant, membership) && hidden_alone(&other, &one, &grant, membership);
        let views = [&one, &other].map(|tables| view_of(&tally, random, tables, &grant, membership));
        assert_eq!(
            views[0] == views[1],
            hidden,
            "{one:x?}\n{other:x?}\ngrant {grant:x?} membership {membership:x}"
        );
        let what = match (one == other, hidden, views[0].pos.is_empty()) {
            (true, ..) => "same woods",
            (_, true, true) => "hidden rows differ, nothing is seen",
            (_, true, false) => "hidden rows differ",
            _ => "visible rows differ",
        };
        tally.note::<()>(&Ok(()), what);
        if hidden {
            queries_alike(&tally, random, &views);
        }
    });
    tally.came(&["hidden rows differ", "visible rows differ", "queried alike"], 1_000);
}

/// A query over both of two views, a turn at a time: what opening and each turn answer and write.
fn queries_alike(tally: &Tally, random: &mut Random, views: &[Tables; 2]) {
    let words = plans::plan(random, &views[0]).words();
    let Ok(Some(mut query)) = queries::query(&views[0], &words, 3_000) else {
        return;
    };
    query.survey = woods::survey(random); // one number for both
    let open = calls::open(random, &query);
    let opened = views.each_ref().map(|tables| {
        guarded::open(&queries::Open {
            tables: tables.clone(),
            ..open.clone()
        })
    });
    assert_eq!(opened[0], opened[1]);
    let mut call = calls::turn(random, &query);
    for _ in 0..4 {
        let turned = views.each_ref().map(|tables| {
            guarded::turn(&queries::Turn {
                tables: tables.clone(),
                ..call.clone()
            })
        });
        assert_eq!(turned[0], turned[1]);
        assert_eq!(turned[0], queries::turn(&query, &call));
        tally.note::<()>(&Ok(()), "queried alike");
        let [_, (answer, state, _)] = turned;
        match answer {
            Ok((_, _, state_words, _)) if state_words > 0 => (call.state, call.given) = (state, state_words),
            _ => return,
        }
    }
}

/// Stands of a large wood: some stems by their own name, some by their stand.
#[test]
fn the_largest_woods_are_viewed_and_one_row_more_is_refused() {
    let random = &mut Random::new(65_536);
    let tally = Tally::default();
    let grants = [
        vec![],
        vec![name(103)],
        (100..120).map(name).collect(),
        vec![name(105), name(1_000_007)],
    ];
    for stems in [32_768, 32_769] {
        let tables = woods::stems(random, stems);
        let rows = tables.quads();
        for grant in &grants {
            // Each stem has two rows, its stand first.
            let admitted = |pair: &[Row]| grant.contains(&pair[0][3]) || grant.contains(&pair[0][1]);
            let pairs = rows.chunks_exact(2).filter(|pair| admitted(pair));
            let right = Tables::of(pairs.flatten().copied().collect());
            let lent = View {
                tables: tables.clone(),
                grant: grant.clone(),
                membership: name(10),
                rows: vec![7; right.rows.len()],
                pos: vec![7; right.pos.len()],
                osp: vec![7; right.osp.len()],
            };
            let (answer, left) = guarded::view(&lent);
            tally.note(&answer, "viewed");
            if stems == 32_768 {
                assert_eq!(answer, Ok((right.rows.len(), right.pos.len(), right.osp.len())));
                assert!(
                    (left.rows, left.pos, left.osp) == (right.rows, right.pos, right.osp),
                    "{grant:?}"
                );
            } else {
                assert!(answer == Err(1) && left == lent);
            }
        }
    }
}
