//! Faults that are planted: each alters an answer somewhere between the planner and the verdict, and is noticed wherever it
//! alters anything. Without a fault nothing differs.

#[path = "planted/adapter.rs"]
mod adapter;
#[path = "planted/area.rs"]
mod area;
#[path = "planted/generator.rs"]
mod generator;
#[path = "planted/planner.rs"]
mod planner;
#[path = "planted/prediction.rs"]
mod prediction;
#[path = "planted/readers.rs"]
mod readers;
#[path = "planted/values.rs"]
mod values;

use judge::generate::{Case, case, limits};

/// A fault with its name.
type Named<F> = (&'static str, F);

/// Cases from a seed, and those at the limits.
fn cases(count: u64) -> Vec<Case> {
    let special = limits::all().into_iter().map(|known| known.case);
    (0..count).map(|number| case(41, number)).chain(special).collect()
}

/// A fault alters something in at least so many cases, and each time it is noticed. `outcome` says of a case whether the
/// fault alters anything, and whether that is noticed.
fn expect_noticed(what: &str, cases: &[Case], least: usize, mut outcome: impl FnMut(&Case) -> (bool, bool)) {
    let mut altered = 0;
    for case in cases {
        let (alters, noticed) = outcome(case);
        altered += usize::from(alters);
        assert!(noticed || !alters, "{what} is not noticed:\n{}", String::from_utf8_lossy(&case.statement));
        assert!(alters || !noticed, "nothing was altered, and yet it differs: {what}");
    }
    println!("{what}: noticed in {altered} cases");
    assert!(altered >= least, "{what} alters {altered} cases");
}
