//! The proved operators and the Rust's, at the edges and on some pairs from a seed. The README says how to run a long one.

use judge::values::{Tally, compare_all, edge_pairs, pair};

const PAIRS: u64 = 20_000;

#[test]
#[cfg_attr(not(operators), ignore = "`tools/build value_host` was not run")]
#[cfg_attr(all(operators, not(planner)), ignore = "the Rust planner's sources are not at hand")]
fn operators_agree_with_the_rust() {
    let mut tally = Tally::default();
    edge_pairs().for_each(|pair| compare_all(&pair, &mut tally));
    (0..PAIRS).for_each(|number| compare_all(&pair(1, number), &mut tally));
    println!("{tally}");
    assert!(tally.shown.is_empty(), "{:#?}", tally.shown);
    assert!(tally.agreed() > 500_000);
    assert!(tally.not_worked_out() > 20_000 && tally.traps() > 100);
}
