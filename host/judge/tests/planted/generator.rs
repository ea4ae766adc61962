//! Faults of the generator, which makes too few cases of a kind or none, and of what is known of special cases: the counts
//! that the tests ask for notice them.

use judge::compare::{Kind, STATEMENTS, Tally, compare};
use judge::generate::{Case, case};
use judge::predict::predict;

use super::Named;

/// Whether a generator with a fault makes a case of those from a seed.
type Fault = fn(&Case) -> bool;

const FAULTS: [Named<Fault>; 5] = [
    ("only DROP is made", |case| case.word() == b"drop"),
    ("no SELECT is made", |case| case.word() != b"select"),
    ("nothing that is refused is made", |case| predict(&case.catalog, &case.statement).refusal.is_none()),
    ("nothing that is planned is made", |case| predict(&case.catalog, &case.statement).refusal.is_some()),
    ("nothing is made", |_| false),
];

fn tally(cases: impl Iterator<Item = Case>) -> Tally {
    let mut tally = Tally::default();
    cases.for_each(|case| tally.add(&compare(&case, &predict(&case.catalog, &case.statement).listing)));
    tally
}

/// What is wanted of some thousand cases.
fn lacks(tally: &Tally) -> Option<String> {
    let planned = STATEMENTS.map(|statement| (Kind::Planned(statement), 20));
    let refused = (2..=29).map(|number| (Kind::Refused(number), 2));
    tally.lacks(80, planned.into_iter().chain(refused))
}

#[test]
#[cfg_attr(not(planner), ignore = "the Rust planner's sources are not at hand")]
fn faults_of_the_generator_are_noticed() {
    let cases = || (0..3_000).map(|number| case(47, number));
    assert_eq!(lacks(&tally(cases())), None);
    for (what, kept) in FAULTS {
        let lacks = lacks(&tally(cases().filter(kept)));
        println!("{what}: {lacks:?}");
        assert!(lacks.is_some(), "{what}");
    }
    assert!(lacks(&tally((0..3_000).map(|_| case(47, 0)))).is_some(), "one case is made again and again");
}
