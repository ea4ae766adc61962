//! A sample of small cases in which every statement and every refusal stands often.

use std::collections::{BTreeMap, HashSet};

use crate::compare::{Kind, Reason, Verdict, compare};
use crate::generate::{Case, case};
use crate::predict::{Prediction, predict};

/// A case of the sample, with its number under the seed.
pub struct Sampled {
    pub number: u64,
    pub case: Case,
    pub prediction: Prediction,
}

/// The first cases of a seed that are small and of a kind that is still wanted. `each` cases of every refusal are wanted,
/// three times as many of every statement planned, and ten times as many SELECTs.
pub fn sample(seed: u64, each: usize) -> Vec<Sampled> {
    const MOST_TRIED: u64 = 1_000_000;
    let mut taken: BTreeMap<Kind, usize> = BTreeMap::new();
    let mut seen = HashSet::new();
    let mut sample = Vec::new();
    for number in 0..MOST_TRIED {
        if sample.len() >= total(each) {
            break;
        }
        let case = case(seed, number);
        let prediction = predict(&case.catalog, &case.statement);
        let kind = match compare(&case, &prediction.listing) {
            Verdict::Agree(kind) => kind,
            Verdict::Apart(_, Reason::NotUtf8 | Reason::TooLarge) | Verdict::Differ(_) => continue,
            Verdict::Apart(kind, _) => kind,
        };
        let count = taken.entry(kind).or_default();
        if *count >= wanted(kind, each) || !is_small(&case, kind) {
            continue;
        }
        if seen.insert((case.catalog.clone(), case.statement.clone())) {
            *count += 1;
            sample.push(Sampled { number, case, prediction });
        }
    }
    sample
}

fn wanted(kind: Kind, each: usize) -> usize {
    match kind {
        Kind::Planned("select") => each.saturating_mul(10),
        Kind::Planned(_) => each.saturating_mul(3),
        Kind::Refused(_) => each,
    }
}

/// The number of cases wanted: SELECT, the five other statements, and the refusals 2 to 29.
fn total(each: usize) -> usize {
    each.saturating_mul(10 + 5 * 3 + 28)
}

/// Whether both texts are UTF-8 and short. A case at a limit may be longer.
fn is_small(case: &Case, kind: Kind) -> bool {
    let most = if kind == Kind::Refused(3) { 2_000 } else { 400 };
    case.catalog.len() + case.statement.len() <= most
        && [&case.catalog, &case.statement].iter().all(|text| std::str::from_utf8(text).is_ok())
}
