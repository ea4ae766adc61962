//! The proved planner, held to the prediction and the Rust on cases from a seed, to the fixed list, and to what is known of
//! special texts; and what it does with the area. The README says how to run a long comparison.

use judge::compare::{Kind, STATEMENTS, Tally, Verdict, compare_exactly};
use judge::generate::{Case, Known, case, damaged, edges, limits, pairs};
use judge::list;
use judge::planning::{Answer, LEAST_AREA, cases_of, compare, listing, plan, printed, random_area};
use judge::random::Random;
use texts::Refusal;

const CASES: u64 = 2_000;
const CHANGES: usize = 20_000;
const DAMAGED: u64 = 10_000;

/// How many cases of a hundred are compared with the Rust or the host's own reading, at least.
const SHARE: usize = if cfg!(planner) { 90 } else { 1 };

/// How many differences are shown.
const SHOWN: usize = 10;

/// Adds a comparison; where it differs, says so.
fn add(tally: &mut Tally, name: &str, verdict: &Verdict) {
    tally.add(verdict);
    if let Verdict::Differ(message) = verdict
        && tally.differ <= SHOWN
    {
        println!("{name} differs: {message}");
    }
}

#[test]
#[cfg_attr(not(planning), ignore = "the planner's library is not linked")]
fn statements_are_planned_as_predicted() {
    let mut tally = Tally::default();
    for number in 0..CASES {
        add(&mut tally, &format!("case {number}"), &compare(&case(11, number), 11, number));
    }
    println!("{tally}");
    assert_eq!(tally.lacks(SHARE, STATEMENTS.map(|statement| (Kind::Planned(statement), 10))), None);
}

#[test]
#[cfg_attr(not(planning), ignore = "the planner's library is not linked")]
#[cfg_attr(all(planning, not(planner)), ignore = "the Rust planner's sources are not at hand")]
fn plans_agree_with_the_rust_planner() {
    let mut tally = Tally::default();
    for number in 0..CASES {
        add(&mut tally, &format!("case {number}"), &compare(&case(10, number), 10, number));
    }
    println!("{tally}");
    assert_eq!(tally.lacks(SHARE, []), None);
}

#[test]
#[cfg_attr(not(planning), ignore = "the planner's library is not linked")]
fn statements_that_change_are_planned_as_predicted() {
    let statements = vec!["create", "drop", "delete", "insert", "update"];
    let mut tally = Tally::default();
    for (number, case) in cases_of(12, 0, statements.clone()).take(CHANGES) {
        add(&mut tally, &format!("case {number}"), &compare(&case, 12, number));
    }
    println!("{tally}");
    let planned = statements.into_iter().map(|statement| (Kind::Planned(statement), 500));
    assert_eq!(tally.lacks(SHARE, planned), None);
}

#[test]
#[cfg_attr(not(planning), ignore = "the planner's library is not linked")]
fn damaged_texts_are_answered_as_predicted() {
    let mut tally = Tally::default();
    for number in 0..DAMAGED {
        add(&mut tally, &format!("damaged case {number}"), &compare(&damaged(13, number), 13, number));
    }
    println!("{tally}");
    let refused = [(2, 1_000), (3, 20), (4, 5)].map(|(number, least)| (Kind::Refused(number), least));
    assert_eq!(tally.lacks(SHARE, refused), None);
}

#[test]
#[cfg_attr(not(planning), ignore = "the planner's library is not linked")]
fn the_fixed_list_is_answered() {
    let path = concat!(env!("CARGO_MANIFEST_DIR"), "/../../crates/replay/data/list.txt");
    let bytes = std::fs::read(path).expect("the fixed list is in the repository");
    let answers = list::read(&bytes).expect("the fixed list is well formed");
    for (i, answer) in answers.iter().enumerate() {
        let printed = printed(&answer.case, &mut Random::new(14, i as u64));
        assert_eq!(printed.as_ref(), Ok(&answer.listing), "record {}", i + 1);
    }
}

fn special_texts() -> impl Iterator<Item = Known> {
    limits::all().into_iter().chain(pairs::all()).chain(edges::all())
}

#[test]
#[cfg_attr(not(planning), ignore = "the planner's library is not linked")]
fn special_texts_are_answered_as_they_are_made() {
    for (number, Known { what, case, refusal }) in special_texts().enumerate() {
        let printed = printed(&case, &mut Random::new(15, number as u64)).expect(what);
        match refusal {
            Some(refusal) => assert_eq!(printed, refusal.printed(), "{what}"),
            None => assert!(printed.starts_with(b"plan\t"), "{what}"),
        }
        let verdict = compare_exactly(&case, &printed);
        assert!(!matches!(verdict, Verdict::Differ(_)), "{what}: {verdict:?}");
    }
}

#[test]
#[cfg_attr(not(planning), ignore = "the planner's library is not linked")]
fn a_short_area_is_refused_and_left_as_it_was() {
    let too_short = Answer::Refused(Refusal::in_statement(1, 0));
    for Known { what, case, .. } in special_texts() {
        for length in [0, 1, 6, LEAST_AREA - 1] {
            let before = random_area(length, &mut Random::new(16, length as u64));
            let mut area = before.clone();
            assert_eq!(plan(&case.catalog, &case.statement, &mut area), too_short, "{what}");
            assert!(area == before, "{what}: the area of {length} numbers is changed");
        }
    }
}

/// Plans into an area that holds noise.
fn planned(case: &Case, mut area: Vec<u32>) -> (Answer, Vec<u32>) {
    let answer = plan(&case.catalog, &case.statement, &mut area);
    (answer, area)
}

/// Some cases of every kind: special texts, and cases from a seed.
fn mixed_cases() -> impl Iterator<Item = Case> {
    special_texts().map(|known| known.case).chain((0..300).map(|number| case(17, number)))
}

#[test]
#[cfg_attr(not(planning), ignore = "the planner's library is not linked")]
fn a_longer_area_is_zero_to_its_end() {
    for case in mixed_cases() {
        let (answer, area) = planned(&case, vec![7; LEAST_AREA]);
        let (same, longer) = planned(&case, vec![7; 20_000]);
        assert_eq!(same, answer);
        assert!(longer[..LEAST_AREA] == area, "the plans differ");
        assert!(longer[LEAST_AREA..].iter().all(|&number| number == 0), "not zero behind the plan");
        match answer {
            Answer::Planned { .. } => assert_eq!(
                listing(&case.catalog, &case.statement, &longer),
                listing(&case.catalog, &case.statement, &area)
            ),
            _ => assert!(area.iter().all(|&number| number == 0), "not zero after a refusal"),
        }
    }
}

#[test]
#[cfg_attr(not(planning), ignore = "the planner's library is not linked")]
fn what_the_area_held_does_not_count() {
    let mut noise = Random::new(18, 0);
    let mut before = vec![0; LEAST_AREA];
    for case in mixed_cases() {
        let clean = planned(&case, vec![0; LEAST_AREA]);
        assert!(planned(&case, vec![u32::MAX; LEAST_AREA]) == clean, "over ones: {clean:?}");
        assert!(planned(&case, random_area(LEAST_AREA, &mut noise)) == clean, "over any numbers: {clean:?}");
        // The plan of the case before.
        assert!(planned(&case, before) == clean, "over another plan: {clean:?}");
        before = clean.1;
    }
}

#[test]
#[cfg_attr(not(planning), ignore = "the planner's library is not linked")]
fn numbers_around_the_area_are_left_as_they_were() {
    const AROUND: usize = 64;
    for length in [LEAST_AREA - 1, LEAST_AREA, 20_000] {
        for case in mixed_cases() {
            let mut numbers = vec![7; AROUND + length + AROUND];
            plan(&case.catalog, &case.statement, &mut numbers[AROUND..AROUND + length]);
            let around = numbers[..AROUND].iter().chain(&numbers[AROUND + length..]);
            assert!(around.copied().all(|number| number == 7), "an area of {length} numbers");
        }
    }
}
