//! The planning program: what it prints of stored questions, at the limits, and of generated cases.

use std::fs::File;
use std::path::Path;
use std::process::Command;
use std::time::Duration;

use judge::generate::{Case, case, edges, limits, pairs};
use judge::predict::predict;
use judge::program::Program;

fn program() -> Program {
    let path = concat!(env!("CARGO_MANIFEST_DIR"), "/../tools/query_plan");
    let program = Program::new(Path::new(path), Duration::from_secs(60));
    program.expect("`tools/build query_plan` was run").showing_records()
}

fn printed(case: &Case) -> String {
    program().print(case).expect("the program runs").escape_ascii().to_string()
}

/// Text with a blank for a tab and a slash for a line end.
fn bytes(text: &str) -> Vec<u8> {
    text.replace(' ', "\t").replace('/', "\n").into_bytes()
}

/// A catalog, a statement and what is printed: one of every statement but SELECT, and a refusal of each text.
const STORED: [(&str, &str, &str); 7] = [
    (
        "",
        "create t/column id int pk - - - -/column p float - null - index -/end/",
        "plan create 0 0/create t 0/column id int notnull unique -/nodefault/column p float null - index/null/",
    ),
    ("", "drop t yes/end/", "plan drop 0 0/drop t yes/"),
    (
        "table t 0/column a int notnull/nodefault/",
        "delete t/where/op eq/col a/int 1/end/",
        "plan delete 1 3/cell 0 col 0/cell 1 int 1/cell 2 eq 0 1/node 0 scan t 2/delete t 0 0/",
    ),
    (
        "table t 0/column a int notnull/nodefault/column b int null/nodefault/",
        "insert t/columns/name b/name a/row 2/int 1/int 2/end/",
        "plan insert 1 2/cell 0 int 1/cell 1 int 2/node 0 values row 2 0 1/insert t 0/columns 2/map 1 0/map 0 1/",
    ),
    (
        "table t 0/column a int notnull/nodefault/column b int null/int 7/",
        "update t/set b default/end/",
        "plan update 1 1/cell 0 int 7/node 0 scan t/update t 0 0/set 1 0/",
    ),
    ("table t 1/column a int null/nodefault/", "drop t no/end/", "refused 2 catalog 1/"),
    ("", "select/item/col a/end/", "refused 10 statement 3/"),
];

#[test]
#[cfg_attr(not(planning_program), ignore = "`tools/build query_plan` was not run")]
fn stored_answers_are_printed() {
    for (catalog, statement, answer) in STORED {
        let case = Case { catalog: bytes(catalog), statement: bytes(statement) };
        assert_eq!(printed(&case), bytes(answer).escape_ascii().to_string(), "{statement}");
    }
}

/// Beside the refusal on standard output, the record that it points at is on standard error.
#[test]
#[cfg_attr(not(planning_program), ignore = "`tools/build query_plan` was not run")]
fn the_record_at_fault_is_shown() {
    let run = |catalog: &str, statement: &str| {
        let folder = std::env::temp_dir().join(format!("query_plan-{}", std::process::id()));
        std::fs::create_dir_all(&folder).expect("the folder is made");
        std::fs::write(folder.join("catalog.txt"), bytes(catalog)).expect("the catalog is written");
        std::fs::write(folder.join("statement.txt"), bytes(statement)).expect("the statement is written");
        let statement = File::open(folder.join("statement.txt")).expect("the statement is there");
        let tool = concat!(env!("CARGO_MANIFEST_DIR"), "/../tools/query_plan");
        let output = Command::new(tool).current_dir(&folder).stdin(statement).output().expect("it runs");
        std::fs::remove_dir_all(&folder).expect("the folder is removed");
        (output.stdout, output.stderr)
    };
    let (select, wrong) = ("select/item/col a/end/", "table t 0/column a int/");
    assert_eq!(run("", select), (bytes("refused 10 statement 3/"), bytes("col a/")));
    assert_eq!(run(wrong, select), (bytes("refused 2 catalog 2/"), bytes("column a int/")));
    assert_eq!(run("", "select/"), (bytes("refused 2 statement 2/"), Vec::new()));
    assert_eq!(run("", "drop t no/end/"), (bytes("plan drop 0 0/drop t no/"), Vec::new()));
}

#[test]
#[cfg_attr(not(planning_program), ignore = "`tools/build query_plan` was not run")]
fn the_examples_are_printed() {
    let examples = Path::new(env!("CARGO_MANIFEST_DIR")).join("../../examples");
    let read = |name: String| std::fs::read(examples.join(name)).expect("the example is there");
    for name in ["p1", "star", "right-join", "groups", "refusal"] {
        let (catalog, statement) = (read("heap.catalog".to_string()), read(format!("{name}.statement")));
        let stored = read(format!("{name}.plan")).escape_ascii().to_string();
        assert_eq!(printed(&Case { catalog, statement }), stored, "{name}");
    }
}

#[test]
#[cfg_attr(not(planning_program), ignore = "`tools/build query_plan` was not run")]
fn special_and_generated_cases_are_printed_as_predicted() {
    let special = limits::all().into_iter().chain(pairs::all()).chain(edges::all()).map(|known| known.case);
    for case in special.chain((0..200).map(|number| case(31, number))) {
        let predicted = predict(&case.catalog, &case.statement).listing.escape_ascii().to_string();
        assert_eq!(printed(&case), predicted);
    }
}

/// A listing of two windows: a text of the catalog and one of the statement, 60,000 bytes each.
#[test]
#[cfg_attr(not(planning_program), ignore = "`tools/build query_plan` was not run")]
fn a_long_listing_is_printed_whole() {
    let long = "x".repeat(60_000);
    let catalog = bytes(&format!("table t 0/column a text null/text {long}/column b text null/nodefault/"));
    let statement = bytes(&format!("update t/set a default/set b/text {long}/end/"));
    let predicted = predict(&catalog, &statement).listing;
    assert!(predicted.len() > 65_536, "{} bytes", predicted.len());
    assert_eq!(printed(&Case { catalog, statement }), predicted.escape_ascii().to_string());
}
