//! Tables made from uploads: good and damaged ones, large ones, and what is made of them.

use crate::checking::{for_each_seed, Tally};
use crate::evaluation::tables::{Row, Tables};
use crate::evaluation::uploads::{self as evaluation, fates, rows_of, Fate, Make};
use crate::evaluation::words::*;
use crate::guarded;
use crate::inputs::random::Random;
use crate::inputs::uploads::{damage, made_up, make, shuffled, upload};
use sotjarn::{Dropped, Reason, RowFault, TableWords, Term, Variable};

/// A call; what it left if it was served.
fn check_make(tally: &Tally, call: &Make) -> Option<Make> {
    let right = evaluation::make(call);
    let made = guarded::make(call);
    assert!(made == right, "right: {right:x?}\nmade: {made:x?}\n{call:x?}");
    tally.note(&right.0, "made");
    right.0.ok().map(|_| right.1)
}

#[test]
fn uploads_are_made_as_the_rules_say() {
    let tally = Tally::default();
    for_each_seed(6000, |random| {
        for most in [4, 12, 40] {
            let words = upload(random, most);
            let call = make(random, words);
            check_make(&tally, &call).expect("the upload is taken");
        }
    });
    tally.came(&["made"], 10_000);
}

#[test]
fn damaged_uploads_are_refused_by_the_first_test_that_fails() {
    let tally = Tally::default();
    for_each_seed(6000, |random| {
        for _ in 0..4 {
            let words = upload(random, 20);
            let mut call = make(random, words);
            (0..random.pick(&[1, 1, 1, 2])).for_each(|_| damage(random, &mut call));
            check_make(&tally, &call);
        }
        check_make(&tally, &made_up(random));
    });
    tally.came(&["made", "refused by 15", "refused by 16"], 1000);
}

#[test]
fn each_buffer_of_exactly_its_words_is_enough_and_one_less_is_not() {
    let tally = Tally::default();
    for_each_seed(2000, |random| {
        let words = upload(random, 15);
        let (Tables { rows, pos, osp }, report) = evaluation::made(&words);
        let exact = Make {
            upload: words,
            rows: vec![7; rows.len()],
            pos: vec![7; pos.len()],
            osp: vec![7; osp.len()],
            report: vec![7; report.len()],
        };
        check_make(&tally, &exact).expect("exact lengths suffice");
        for buffer in 0..4 {
            let mut short = exact.clone();
            let words = [&mut short.rows, &mut short.pos, &mut short.osp, &mut short.report]
                .into_iter()
                .nth(buffer);
            if words.expect("there are four").pop().is_some() {
                assert_eq!(check_make(&tally, &short), None);
            }
        }
    });
    tally.came(&["made", "refused by 16"], 1000);
}

#[test]
fn what_is_made_passes_the_check_and_holds_the_kept_rows() {
    for_each_seed(3000, |random| {
        let words = upload(random, 30);
        let (made, dropped) = TableWords::make(&words).expect("the upload is taken");
        let tables = Tables {
            rows: made.rows.clone(),
            pos: made.pos.clone(),
            osp: made.osp.clone(),
        };
        assert!(tables.orders().is_ok(), "the tests of tables pass");
        let (rows, _) = rows_of(&words);
        let fates = fates(&rows);
        let mut kept: Vec<Row> = rows
            .iter()
            .zip(&fates)
            .filter(|(_, &fate)| fate == Fate::Kept)
            .map(|(&row, _)| row)
            .collect();
        kept.sort();
        assert_eq!(tables.quads(), kept);
        let told: Vec<(usize, Fate)> = dropped
            .iter()
            .map(|&Dropped { place, reason }| match reason {
                Reason::WrongKind => (place, Fate::WrongKind),
                Reason::Repeat => (place, Fate::Repeat),
            })
            .collect();
        let right: Vec<(usize, Fate)> = fates
            .into_iter()
            .enumerate()
            .filter(|&(_, fate)| fate != Fate::Kept)
            .collect();
        assert_eq!(told, right);
    });
}

#[test]
fn made_tables_are_made_again_the_same() {
    for_each_seed(1000, |random| {
        let words = upload(random, 30);
        let (made, _) = TableWords::make(&words).expect("the upload is taken");
        assert_eq!(TableWords::make(&made.rows), Ok((made, vec![])));
    });
}

#[test]
fn rows_of_terms_are_made_or_the_wrong_one_is_named() {
    for_each_seed(3000, |random| {
        let (rows, _) = rows_of(&upload(random, 12));
        let terms = rows.iter().map(|row| row.map(Term::read));
        let wrong = fates(&rows).iter().position(|&fate| fate == Fate::WrongKind);
        match (TableWords::from_rows(terms), wrong) {
            (Ok(made), None) => assert_eq!(made.rows, Tables::of(rows).rows),
            (made, wrong) => assert_eq!(made.err(), wrong.map(RowFault::WrongKind)),
        }
    });
    let most = [
        Term::Number(2026),
        Term::Name(1),
        Term::Name(2),
        Term::Variable(Variable(1 << 30)),
    ];
    assert!(matches!(TableWords::from_rows([most]), Err(RowFault::TooLarge(_))));
    let many = (0..65_537).map(|stem| [Term::Number(2026), Term::Name(stem), Term::Name(10), Term::Name(100)]);
    assert!(matches!(TableWords::from_rows(many), Err(RowFault::Refused(refusal)) if refusal.code() == 15));
}

/// What large uploads make is worked out without looking at all earlier rows: these have no repeat and no wrong kind.
#[test]
fn the_largest_uploads_are_made_and_one_row_more_is_refused() {
    let random = &mut Random::new(65_536);
    for many in [65_535, 65_536] {
        let words = shuffled(random, many);
        let (made, dropped) = TableWords::make(&words).expect("the upload is taken");
        let right = Tables::of(rows_of(&words).0);
        assert_eq!((right.pos.len(), dropped), (many, vec![]));
        assert!(
            (made.rows, made.pos, made.osp) == (right.rows, right.pos, right.osp),
            "{many} rows"
        );
    }
    let words = shuffled(random, 65_537);
    assert_eq!(TableWords::make(&words).map_err(|refusal| refusal.code()), Err(15));
    let none = sotjarn::make(&words, &mut [], &mut [], &mut [], &mut []);
    assert_eq!(none.map_err(|refusal| refusal.code()), Err(15), "15 comes before 16");
    let none = sotjarn::make(&words[..4 * 65_536], &mut [], &mut [], &mut [], &mut []);
    assert_eq!(none.map_err(|refusal| refusal.code()), Err(16));
}

/// Rows that are all the same, and rows that are all wrong: the longest reports.
#[test]
fn the_longest_reports_name_every_row() {
    let many = 65_536;
    let same = [number(2026), name(1), name(10), number(45)].repeat(many);
    let (made, dropped) = TableWords::make(&same).expect("the upload is taken");
    assert_eq!((made.rows, made.pos, made.osp), (same[..4].to_vec(), vec![0], vec![0]));
    let repeat = |place| Dropped {
        place,
        reason: Reason::Repeat,
    };
    assert_eq!(dropped, (1..many).map(repeat).collect::<Vec<_>>());

    let wrong = [variable(0); 4].repeat(many);
    let (made, dropped) = TableWords::make(&wrong).expect("the upload is taken");
    assert_eq!(made, TableWords::default());
    let wrong_kind = |place| Dropped {
        place,
        reason: Reason::WrongKind,
    };
    assert_eq!(dropped, (0..many).map(wrong_kind).collect::<Vec<_>>());
}
