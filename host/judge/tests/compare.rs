//! A quick comparison with the Rust planner. The README says how to run a long one.

use judge::compare::{Kind, Reason, STATEMENTS, Tally, Verdict, compare};
use judge::generate::case;
use judge::predict::predict;

const CASES: u64 = 6_000;

#[test]
#[cfg_attr(not(planner), ignore = "the Rust planner's sources are not at hand")]
fn predictions_agree_with_the_rust_planner() {
    let mut tally = Tally::default();
    for number in 0..CASES {
        let case = case(1, number);
        let verdict = compare(&case, &predict(&case.catalog, &case.statement).listing);
        tally.add(&verdict);
        if let Verdict::Differ(message) = verdict {
            println!("case {number} of seed 1 differs: {message}");
        }
    }
    println!("{tally}");
    let planned = STATEMENTS.map(|statement| (Kind::Planned(statement), 50));
    assert_eq!(tally.lacks(90, planned), None);
    for (reason, least) in [(Reason::Reading, 300), (Reason::NotOfTheRust, 50), (Reason::Trap, 10)] {
        assert!(tally.apart_for(reason) >= least, "{reason}: {} cases", tally.apart_for(reason));
    }
}

#[test]
fn every_refusal_occurs_often() {
    let mut refused = [0; 30];
    for number in 0..2 * CASES {
        let case = case(1, number);
        if let Some(refusal) = predict(&case.catalog, &case.statement).refusal {
            refused[usize::from(refusal.number)] += 1;
        }
    }
    for (number, count) in refused.iter().enumerate().skip(2) {
        println!("refused {number:>2} {count:>6}");
        assert!(*count >= 10, "refusal {number} occurs {count} times");
    }
}

/// The columns of a printed plan's aggregate node: its groups, and a name and a cell of each aggregate.
fn aggregate_columns(listing: &[u8]) -> usize {
    let mut lines =
        listing.split(|&b| b == b'\n').map(|line| line.split(|&b| b == b'\t').collect::<Vec<_>>());
    let Some(node) = lines.find(|fields| fields.get(2) == Some(&b"aggregate".as_slice())) else {
        return 0;
    };
    let fields = &node[4..];
    let names = fields.iter().filter(|field| field[0].is_ascii_alphabetic()).count();
    fields.len() - names
}

#[test]
fn wide_aggregate_scopes_occur() {
    let widths: Vec<usize> = (0..2 * CASES)
        .map(|number| case(1, number))
        .map(|case| aggregate_columns(&predict(&case.catalog, &case.statement).listing))
        .collect();
    let of = |least: usize| widths.iter().filter(|width| **width >= least).count();
    println!("aggregate columns: {} of 200 or more, {} of 240, {} of 256", of(200), of(240), of(256));
    assert!(of(200) >= 30 && of(240) >= 10 && of(256) >= 1);
}
