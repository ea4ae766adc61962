//! The fixed list: its answers are those that are predicted, and the Rust planner's.

use judge::compare::{Kind, Tally, compare};
use judge::list::{self, Answered};
use judge::predict::predict;

fn answers() -> Vec<Answered> {
    let path = concat!(env!("CARGO_MANIFEST_DIR"), "/../../crates/replay/data/list.txt");
    let bytes = std::fs::read(path).expect("the fixed list is in the repository");
    list::read(&bytes).expect("the fixed list is well formed")
}

#[test]
fn the_fixed_list_is_predicted() {
    let answers = answers();
    assert!(answers.len() >= 1_000);
    for (i, answer) in answers.iter().enumerate() {
        let predicted = predict(&answer.case.catalog, &answer.case.statement).listing;
        assert_eq!(answer.listing, predicted, "record {}", i + 1);
    }
}

#[test]
#[cfg_attr(not(planner), ignore = "the Rust planner's sources are not at hand")]
fn the_fixed_list_agrees_with_the_rust_planner() {
    let mut tally = Tally::default();
    answers().iter().for_each(|answer| tally.add(&compare(&answer.case, &answer.listing)));
    println!("{tally}");
    assert_eq!(tally.lacks(80, (2..=29).map(|number| (Kind::Refused(number), 10))), None);
}
