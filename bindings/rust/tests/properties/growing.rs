//! Woods made to measure: good and damaged calls, the largest, and queries over grown woods.

use crate::checking::{for_each_seed, Tally};
use crate::evaluation::growing::{self as evaluation, Grow};
use crate::evaluation::tables::Tables;
use crate::guarded;
use crate::inputs::growing::{damage, grow, lend};
use crate::inputs::random::Random;

/// A call; what it left if it was served.
fn check_grow(tally: &Tally, call: &Grow) -> Option<Grow> {
    let right = evaluation::grow(call);
    let made = guarded::grow(call);
    assert!(made == right, "right: {right:x?}\nmade: {made:x?}\n{call:x?}");
    tally.note(&right.0, "grown");
    right.0.ok().map(|_| right.1)
}

/// The tables that a served call wrote.
fn tables_of(left: &Grow) -> Tables {
    let many = left.stems as usize;
    Tables {
        rows: left.rows[..8 * many].to_vec(),
        pos: left.pos[..2 * many].to_vec(),
        osp: left.osp[..2 * many].to_vec(),
    }
}

#[test]
fn woods_are_grown_as_the_rules_say() {
    let tally = Tally::default();
    for_each_seed(3000, |random| {
        for most in [1, 4, 40, 150] {
            let call = grow(random, most);
            let left = check_grow(&tally, &call).expect("the wood is grown");
            assert!(tables_of(&left).orders().is_ok(), "the tests of tables pass");
        }
    });
    tally.came(&["grown"], 10_000);
}

#[test]
fn damaged_growing_is_refused_by_the_first_test_that_fails() {
    let tally = Tally::default();
    for_each_seed(3000, |random| {
        for _ in 0..5 {
            let mut call = grow(random, 20);
            (0..random.pick(&[1, 1, 1, 2])).for_each(|_| damage(random, &mut call));
            check_grow(&tally, &call);
        }
    });
    tally.came(&["grown", "refused by 24", "refused by 25"], 1_000);
}

#[test]
fn the_largest_woods_are_grown_and_one_stem_more_is_refused() {
    let (tally, random) = (Tally::default(), &mut Random::new(24));
    for (stems, year) in [(32_767, 2026), (32_768, 1), (32_768, 9_999)] {
        let call = lend(random, 1, stems, year);
        let left = check_grow(&tally, &call).expect("the wood is grown");
        assert!(tables_of(&left).orders().is_ok(), "the tests of tables pass");
    }
    assert!(check_grow(&tally, &lend(random, 1, 32_769, 2026)).is_none());
}

#[test]
fn what_the_buffers_held_does_not_matter() {
    let tally = Tally::default();
    for_each_seed(500, |random| {
        let call = grow(random, 30);
        let other = lend(random, call.seed, call.stems, call.year);
        let grown = [call, other].map(|call| tables_of(&check_grow(&tally, &call).expect("the wood is grown")));
        assert!(grown[0] == grown[1], "seed, count and year alone decide");
    });
}
