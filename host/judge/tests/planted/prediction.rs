//! Faults of the prediction, noticed by the Rust planner alone. Order and sharing of cells, and lines, the Rust does not
//! have: of these the rules' listings tell (README).

use judge::compare::{Verdict, compare};
use judge::generate::Case;
use judge::predict::predict;

use super::{Named, cases, expect_noticed};

/// What is predicted, altered: the words that are exchanged, each at its first place.
const EXCHANGED: [Named<(&str, &str)>; 14] = [
    ("gt for lt", ("\tlt\t", "\tgt\t")),
    ("eq for gt", ("\tgt\t", "\teq\t")),
    ("or for and", ("\tand\t", "\tor\t")),
    ("sub for add", ("\tadd\t", "\tsub\t")),
    ("t for f", ("\tbool\tf", "\tbool\tt")),
    ("desc for asc", ("\tasc", "\tdesc")),
    ("inner for outer", ("\touter", "\tinner")),
    ("max for min", ("\tmin\t", "\tmax\t")),
    ("sum for avg", ("\tavg\t", "\tsum\t")),
    ("limit for offset", ("\toffset\t", "\tlimit\t")),
    ("another alias", ("\tas\t", "\tas\tz")),
    ("notnull for null", ("\tnull\t", "\tnotnull\t")),
    ("a column that is not unique", ("\tunique\t", "\t-\t")),
    ("no for yes", ("\tyes\n", "\tno\n")),
];

fn exchanged(listing: &[u8], from: &str, to: &str) -> Vec<u8> {
    let (from, to) = (from.as_bytes(), to.as_bytes());
    match listing.windows(from.len()).position(|window| window == from) {
        Some(at) => [&listing[..at], to, &listing[at + from.len()..]].concat(),
        None => listing.to_vec(),
    }
}

/// The cases whose right prediction agrees with the Rust.
fn agreed(count: u64) -> Vec<Case> {
    let right = |case: &Case| compare(case, &predict(&case.catalog, &case.statement).listing);
    cases(count).into_iter().filter(|case| matches!(right(case), Verdict::Agree(_))).collect()
}

#[test]
#[cfg_attr(not(planner), ignore = "the Rust planner's sources are not at hand")]
fn faults_of_the_prediction_are_noticed() {
    let cases = agreed(2_000);
    for (what, (from, to)) in EXCHANGED {
        expect_noticed(what, &cases, 3, |case| {
            let right = predict(&case.catalog, &case.statement).listing;
            let altered = exchanged(&right, from, to);
            if altered == right || !right.starts_with(b"plan") {
                return (false, false);
            }
            (true, matches!(compare(case, &altered), Verdict::Differ(_)))
        });
    }
}

/// Every refusal's number in the place of every other.
#[test]
#[cfg_attr(not(planner), ignore = "the Rust planner's sources are not at hand")]
fn another_refusal_is_noticed() {
    let cases = agreed(800);
    for number in (1..=2).chain(4..=29) {
        expect_noticed(&format!("{number} for every refusal"), &cases, 100, |case| {
            let right = predict(&case.catalog, &case.statement).refusal;
            let Some(mut refusal) = right.filter(|refusal| refusal.number != number) else {
                return (false, false);
            };
            refusal.number = number;
            (true, matches!(compare(case, &refusal.printed()), Verdict::Differ(_)))
        });
    }
}
