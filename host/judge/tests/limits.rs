//! Cases whose refusal is known from how they are made.

use judge::compare::{Reason, Tally, Verdict, compare};
use judge::generate::{Known, edges, limits, pairs};
use judge::predict::predict;

/// Holds some cases, of which there are at least so many and so many are planned.
fn hold(cases: Vec<Known>, least: usize, planned: usize) {
    let mut tally = Tally::default();
    assert!(cases.len() >= least, "{} cases", cases.len());
    assert!(cases.iter().filter(|known| known.refusal.is_none()).count() >= planned);
    for known in cases {
        let prediction = predict(&known.case.catalog, &known.case.statement);
        assert_eq!(prediction.refusal, known.refusal, "{}", known.what);
        let verdict = compare(&known.case, &prediction.listing);
        assert!(!matches!(verdict, Verdict::Differ(_)), "{}: {verdict:?}", known.what);
        tally.add(&verdict);
    }
    println!("{tally}");
    if cfg!(planner) {
        let held = tally.compared() + tally.apart_for(Reason::NotOfTheRust);
        assert_eq!(held, tally.cases(), "each is held to the Rust, the reading or a limit");
    }
}

#[test]
fn limits_are_noticed_where_they_are_passed() {
    hold(limits::all(), 48, 22);
}

#[test]
fn the_first_of_two_faults_is_named() {
    hold(pairs::all(), 22, 0);
}

#[test]
fn edges_are_refused_where_they_are_wrong() {
    hold(edges::all(), 60, 4);
}
