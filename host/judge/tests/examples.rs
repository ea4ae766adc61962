//! The stored plans of the repository's examples, held to the prediction and to the Rust planner.

use std::path::Path;

use judge::compare::{Reason, Verdict, compare_exactly};
use judge::generate::Case;

const EXAMPLES: [&str; 5] = ["p1", "star", "right-join", "groups", "refusal"];

fn read(name: &str) -> Vec<u8> {
    let path = Path::new(env!("CARGO_MANIFEST_DIR")).join("../../examples").join(name);
    std::fs::read(&path).unwrap_or_else(|error| panic!("{}: {error}", path.display()))
}

#[test]
fn stored_plans_are_as_predicted() {
    for name in EXAMPLES {
        let case = Case { catalog: read("heap.catalog"), statement: read(&format!("{name}.statement")) };
        match compare_exactly(&case, &read(&format!("{name}.plan"))) {
            Verdict::Differ(message) => panic!("{name} differs: {message}"),
            Verdict::Agree(_) | Verdict::Apart(_, Reason::NoSources) => {}
            Verdict::Apart(_, reason) => panic!("{name} is apart: {reason}"),
        }
    }
}
