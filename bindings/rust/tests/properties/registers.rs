//! Reports on registers: good and damaged, and what they tell.

use crate::checking::{for_each_seed, Tally};
use crate::evaluation::registers::{self as evaluation, Report};
use crate::guarded;
use crate::inputs::{calls, damage};

fn check_report(tally: &Tally, call: &Report) -> Option<Vec<u32>> {
    let right = evaluation::report(call);
    let made = guarded::report(call);
    assert!(made == right, "right: {right:x?}\nmade: {made:x?}\n{call:x?}");
    tally.note(&right.0, "reported");
    right.0.ok().map(|words| right.1[..words].to_vec())
}

#[test]
fn reports_count_the_registers() {
    let tally = Tally::default();
    for_each_seed(6000, |random| {
        let call = calls::report(random);
        let counts = check_report(&tally, &call).expect("the report is made");
        assert_eq!(counts.iter().sum::<u32>(), 16);
        let estimate = sotjarn::estimate(&counts).expect("a report");
        assert!(
            (estimate == 0.0) == (counts[0] == 16),
            "nothing is counted where no register is touched"
        );
    });
    tally.came(&["reported"], 1000);
}

#[test]
fn damaged_reports_are_refused_by_the_first_test_that_fails() {
    let tally = Tally::default();
    for_each_seed(6000, |random| {
        for _ in 0..4 {
            let mut call = calls::report(random);
            (0..random.pick(&[1, 1, 1, 2])).for_each(|_| damage::report(random, &mut call));
            check_report(&tally, &call);
        }
    });
    tally.came(&["reported", "refused by 7", "refused by 12"], 1000);
}

#[test]
fn what_an_estimate_is_worth() {
    let told = |values: &mut dyn Iterator<Item = u32>| {
        let mut counts = [0; sotjarn::REPORT_WORDS];
        sotjarn::report(&evaluation::registers(values), 16, &mut counts).expect("registers");
        sotjarn::estimate(&counts).expect("a report").round()
    };
    // The numbers i20 to i619, and names that are 65,536 apart: what docs/FORMATS.md says of them.
    assert_eq!(told(&mut (20..620).map(|value| 1 << 30 | value)), 40.0);
    assert_eq!(told(&mut (0..256).map(|value| value << 16)), 1.0);
    assert_eq!(told(&mut (0..5).map(|value| 1_000_000 + value)), 5.0);
}
