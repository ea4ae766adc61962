//! What is timed: the questions agree on all sides, and the command prints its lines in their form. No time is tested.

use std::process::Command;

use judge::bench::growth::series;
use judge::bench::questions::{Question, questions};
use judge::bench::{Sqlite, database, growth, page, picture};
use judge::compare::{Kind, Reason, Verdict};
use judge::generate::Case;
use judge::planning::compare;
use texts::{Expr, Select, Statement};

#[test]
#[cfg_attr(not(planning), ignore = "the planner's library is not linked")]
#[cfg_attr(all(planning, not(planner)), ignore = "the Rust planner's sources are not at hand")]
fn questions_are_planned_as_the_rust_planner_does() {
    for Question { name, case } in questions() {
        assert_eq!(compare(&case, 21, 0), Verdict::Agree(Kind::Planned("select")), "{name}");
    }
}

/// Where SQLite's library is not installed, there is nothing to ask.
#[test]
fn sqlite_prepares_the_questions() {
    let Some(sqlite) = Sqlite::find() else {
        return println!("SQLite is not installed");
    };
    for (Question { name, case }, columns) in questions().iter().zip([1, 18, 3]) {
        let database = database(case, Some(sqlite)).unwrap_or_else(|| panic!("{name} is refused"));
        assert_eq!(database.columns(), Some(columns), "{name}");
    }
}

fn select(case: &Case) -> Select {
    match texts::read(&case.catalog, &case.statement).expect("it is read").statement {
        Statement::Select(select) => *select,
        other => panic!("{other:?}"),
    }
}

fn cells(expressions: &[&Expr]) -> usize {
    expressions.iter().map(|expr| expr.cells()).sum()
}

#[test]
fn questions_are_of_the_form_they_are_named_for() {
    let [_, sixteen, grouped] = questions().map(|question| select(&question.case));
    let filter = sixteen.filter.expect("it has a WHERE");
    assert_eq!((sixteen.items.len(), sixteen.order.len(), cells(&[&filter])), (2, 2, 16 * 3 + 15));
    assert_eq!((grouped.items.len(), grouped.groups.len(), grouped.order.len()), (3, 1, 2));
    assert!(grouped.having.is_some());
}

#[test]
#[cfg_attr(not(planning), ignore = "the planner's library is not linked")]
#[cfg_attr(all(planning, not(planner)), ignore = "the Rust planner's sources are not at hand")]
fn growing_questions_are_planned_as_the_rust_planner_does() {
    for series in series() {
        for (size, case) in series.cases() {
            match compare(&case, 22, size as u64) {
                Verdict::Agree(Kind::Planned("select")) => {}
                // The Rust's tree of many chained `ge`.
                Verdict::Apart(Kind::Planned("select"), Reason::TooLarge) if series.name == "ge" => {}
                verdict => panic!("{} {size}: {verdict:?}", series.name),
            }
        }
    }
}

#[test]
fn growing_questions_have_the_sizes_they_are_named_for() {
    let greatest = |name: &str| {
        let all = series();
        let series = all.iter().find(|series| series.name == name).expect("there is such a series");
        series.cases().last().expect("it has sizes")
    };
    let (size, case) = greatest("ge");
    assert_eq!((size, cells(&[&select(&case).filter.expect("it has a WHERE")])), (16, 16 + 17));
    for (size, case) in series()[1].cases() {
        let statement = texts::read(&case.catalog, &case.statement).expect("it is read").statement;
        assert_eq!(cells(&statement.expressions()), size);
    }
    assert_eq!(greatest("expression").0, 512);
    assert_eq!(greatest("columns").0, 255);
    assert_eq!(greatest("tables").0, 16);
    let (size, case) = greatest("groups");
    assert_eq!((size, select(&case).groups.len(), select(&case).items.len()), (64, 64, 64));
    let (size, case) = greatest("aggregates");
    let calls = case.statement.split(|&b| b == b'\n').filter(|line| line.starts_with(b"fn\t")).count();
    assert_eq!((size, calls), (200, 200));
}

/// What the command prints of one round, and whether it went well.
fn printed(arguments: &[&str]) -> (Option<i32>, String) {
    let output = Command::new(env!("CARGO_BIN_EXE_judge")).args(arguments).output().expect("it runs");
    (output.status.code(), String::from_utf8(output.stdout).expect("it prints UTF-8"))
}

#[test]
#[cfg_attr(
    not(all(planning, reading)),
    ignore = "`tools/build planner` or `tools/build reader_host` was not run"
)]
fn bench_prints_a_line_a_question() {
    for which in [&["bench", "--rounds", "1"][..], &["bench", "--rounds", "1", "--median"]] {
        let (code, printed) = printed(which);
        assert_eq!(code, Some(0));
        let lines: Vec<Vec<_>> = printed.lines().map(|line| line.split('\t').collect()).collect();
        assert_eq!(
            lines.iter().map(|line| line[0]).collect::<Vec<_>>(),
            ["first", "sixteen", "grouped", "reading"]
        );
        for line in lines {
            let [name, ours, toydb, ratio, sqlite, to_sqlite] = line[..] else {
                panic!("{line:?} has not six fields");
            };
            ours.parse::<f64>().expect("our time");
            let compared = name == "reading" || oracle::AVAILABLE;
            assert!([toydb, ratio].iter().all(|field| field.parse::<f64>().is_ok() == compared), "{line:?}");
            let prepared = name != "reading" && Sqlite::find().is_some();
            assert!(
                [sqlite, to_sqlite].iter().all(|field| field.parse::<f64>().is_ok() == prepared),
                "{line:?}"
            );
            assert!(line.iter().all(|field| *field == "-" || !field.starts_with('-')), "{line:?}");
        }
    }
}

#[test]
fn a_picture_has_a_panel_a_series() {
    let point = |size| growth::Point { size, cells: size, times: [Some(100.0), None, Some(20.0)] };
    let grown: Vec<_> = series().into_iter().map(|series| (series, vec![point(1), point(8)])).collect();
    let svg = picture(&grown);
    assert!(svg.starts_with("<svg ") && svg.ends_with("</svg>\n"));
    assert!(grown.iter().all(|(series, _)| svg.contains(&format!(">{}: ", series.name))));
    assert_eq!(
        page::growth(&grown[1].0, &grown[1].1),
        "| expression | expression cells | 1, 8, 8 | 1, 8, 8 | 100, 100, 100 | -, -, - | 20, 20, 20 |"
    );
}
