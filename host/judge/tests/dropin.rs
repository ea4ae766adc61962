//! The proved planner in the place of toydb's own, on cases from a seed. The README says how to run a long comparison.

use judge::compare::{Kind, STATEMENTS, Tally, Verdict};
use judge::dropin::{cases, compare};
use judge::generate::limits;

const CASES: usize = 5_000;

#[test]
#[cfg_attr(not(planning), ignore = "the planner's library is not linked")]
#[cfg_attr(all(planning, not(planner)), ignore = "the Rust planner's sources are not at hand")]
fn toydb_has_the_same_plans_from_both() {
    let mut tally = Tally::default();
    for (number, case) in cases(31, 0).take(CASES) {
        let verdict = compare(&case, 31, number);
        tally.add(&verdict);
        if let Verdict::Differ(message) = verdict {
            println!("case {number} differs: {message}");
        }
    }
    println!("{tally}");
    let planned = STATEMENTS.map(|statement| (Kind::Planned(statement), 80));
    let refused = (5..=29).map(|number| (Kind::Refused(number), 3));
    assert_eq!(tally.lacks(97, planned.into_iter().chain(refused)), None);
}

#[test]
#[cfg_attr(not(planning), ignore = "the planner's library is not linked")]
#[cfg_attr(all(planning, not(planner)), ignore = "the Rust planner's sources are not at hand")]
fn toydb_has_the_same_plans_at_the_limits() {
    let mut tally = Tally::default();
    for known in limits::all() {
        let verdict = compare(&known.case, 32, 0);
        assert!(!matches!(verdict, Verdict::Differ(_)), "{}: {verdict:?}", known.what);
        tally.add(&verdict);
    }
    assert!(tally.agreed() >= 20, "{tally}");
}
