//! The tree of a plan for people, held to what the Rust planner's own `Display` shows of its plan.

use std::collections::BTreeMap;

use judge::generate::{Case, case, limits};
use oracle::Answer;
use planner::{LEAST_AREA, Plan, plan};

const CASES: u64 = 10_000;

/// No more cells than this are shown, so larger plans are not compared.
const LARGEST: usize = 16_384;

/// How many cells there are with nothing shared.
fn unfolded(plan: &Plan) -> usize {
    let mut sizes: Vec<usize> = Vec::with_capacity(plan.cell_count());
    for (_, cell) in plan.cells() {
        let size = cell.operands().fold(1, |sum: usize, operand| sum.saturating_add(sizes[operand.index()]));
        sizes.push(size);
    }
    sizes.into_iter().fold(0, usize::saturating_add)
}

/// Compares the tree of a case with the Rust's, and gives the kind of the statement where both have one.
fn compare(name: &str, case: &Case, area: &mut [u32]) -> Option<&'static str> {
    let plan = plan(&case.catalog, &case.statement, area).ok()?;
    if unfolded(&plan) > LARGEST {
        return None;
    }
    let texts = texts::read(&case.catalog, &case.statement).expect("texts that are planned");
    match oracle::explain(&texts) {
        Answer::Given(explained) => assert_eq!(plan.tree().to_string(), explained, "{name}"),
        Answer::NotUtf8 => return None,
        answer => panic!("{name}: planned, and the Rust answers {answer:?}"),
    }
    Some(plan.kind().word())
}

#[test]
#[cfg_attr(not(planning), ignore = "the planner's library is not linked")]
#[cfg_attr(all(planning, not(planner)), ignore = "the Rust planner's sources are not at hand")]
fn trees_are_those_of_explain() {
    let mut area = vec![0; LEAST_AREA];
    let mut compared: BTreeMap<&str, usize> = BTreeMap::new();
    for number in 0..CASES {
        if let Some(kind) = compare(&format!("case {number}"), &case(31, number), &mut area) {
            *compared.entry(kind).or_default() += 1;
        }
    }
    println!("{compared:?}");
    for (kind, least) in
        [("select", 1_000), ("create", 200), ("drop", 100), ("delete", 100), ("insert", 200), ("update", 100)]
    {
        assert!(compared.get(kind).is_some_and(|count| *count >= least), "{kind} is compared seldom");
    }
}

#[test]
#[cfg_attr(not(planning), ignore = "the planner's library is not linked")]
#[cfg_attr(all(planning, not(planner)), ignore = "the Rust planner's sources are not at hand")]
fn trees_at_the_limits_are_those_of_explain() {
    let mut area = vec![0; LEAST_AREA];
    let compared =
        limits::all().iter().filter(|known| compare(known.what, &known.case, &mut area).is_some()).count();
    println!("{compared} compared");
    assert!(compared >= 10, "only {compared} are compared");
}
