//! Faults of the drop-in's adapter: in the texts that it makes of toydb's statement, and in toydb's plan that it makes of
//! what is printed.

use std::cell::Cell;

use judge::compare::{Kind, Verdict};
use judge::dropin::{Between, compare, compare_by};
use judge::generate::Case;
use judge::planning::plan;

use super::{Named, cases, expect_noticed};

/// What is exchanged in the statement's text before it is planned.
const WRITTEN: [Named<(&str, &str)>; 13] = [
    ("written gt for lt", ("op\tlt\n", "op\tgt\n")),
    ("written ge for gt", ("op\tgt\n", "op\tge\n")),
    ("written eq for ne", ("op\tne\n", "op\teq\n")),
    ("written or for and", ("op\tand\n", "op\tor\n")),
    ("written neg for ident", ("op\tident\n", "op\tneg\n")),
    ("written desc for asc", ("order\tasc\n", "order\tdesc\n")),
    ("written left for right", ("join\tright\t", "join\tleft\t")),
    ("written inner for left", ("join\tleft\t", "join\tinner\t")),
    ("written limit for offset", ("offset\n", "limit\n")),
    ("a key that is not written", ("\tpk\t", "\t-\t")),
    ("written null for notnull", ("\tnotnull\t", "\tnull\t")),
    ("written t for f", ("bool\tf\n", "bool\tt\n")),
    ("written a negative zero", ("float\t0000000000000000\n", "float\t8000000000000000\n")),
];

/// What is exchanged in the printed plan before it is read.
const READ: [Named<(&str, &str)>; 15] = [
    ("read gt for lt", ("\tlt\t", "\tgt\t")),
    ("read mul for pow", ("\tpow\t", "\tmul\t")),
    ("read or for and", ("\tand\t", "\tor\t")),
    ("read desc for asc", ("\tasc", "\tdesc")),
    ("read inner for outer", ("\touter", "\tinner")),
    ("read another alias", ("\tas\t", "\tas\tz")),
    ("read an alias too few", ("\tas\t", "\t")),
    ("read max for min", ("\tmin\t", "\tmax\t")),
    ("read a column too high", ("\tcol\t", "\tcol\t1")),
    ("read a float for an integer", ("\tint\t1\n", "\tfloat\t3ff0000000000000\n")),
    ("read a negative zero", ("\tfloat\t0000000000000000\n", "\tfloat\t8000000000000000\n")),
    ("read another key", ("\nupdate\t", "\nupdate\tx")),
    ("read no target for the first", ("\tremap\t", "\tremap\t1")),
    ("read a column that is not unique", ("\tunique\t", "\t-\t")),
    ("read a column without its default", ("\nnull\n", "\nnodefault\n")),
];

fn exchanged(text: &[u8], (from, to): (&str, &str)) -> Vec<u8> {
    let (from, to) = (from.as_bytes(), to.as_bytes());
    match text.windows(from.len()).position(|window| window == from) {
        Some(at) => [&text[..at], to, &text[at + from.len()..]].concat(),
        None => text.to_vec(),
    }
}

/// The cases that both planners plan.
fn planned() -> Vec<Case> {
    let is_planned = |case: &Case| matches!(compare(case, 46, 0), Verdict::Agree(Kind::Planned(_)));
    cases(1_000).into_iter().filter(is_planned).collect()
}

/// Whether a fault alters something in a case, and whether that is noticed.
fn outcome(case: &Case, between: &Between) -> (bool, bool) {
    let altered = Cell::new(false);
    let noting = Between {
        texts: &|case| {
            let new = (between.texts)(case.clone());
            altered.set(altered.get() || new != case);
            new
        },
        printed: &|printed| {
            let new = (between.printed)(printed.clone());
            altered.set(altered.get() || new != printed);
            new
        },
    };
    let verdict = compare_by(plan, &noting, case, 46, 0);
    (altered.get(), matches!(verdict, Verdict::Differ(_)))
}

#[test]
#[cfg_attr(not(planning), ignore = "the planner's library is not linked")]
#[cfg_attr(all(planning, not(planner)), ignore = "the Rust planner's sources are not at hand")]
fn faults_of_what_the_adapter_writes_are_noticed() {
    let cases = planned();
    for (what, words) in WRITTEN {
        let texts = |case: Case| Case { statement: exchanged(&case.statement, words), catalog: case.catalog };
        let between = Between { texts: &texts, printed: &|printed| printed };
        expect_noticed(what, &cases, 2, |case| outcome(case, &between));
    }
}

#[test]
#[cfg_attr(not(planning), ignore = "the planner's library is not linked")]
#[cfg_attr(all(planning, not(planner)), ignore = "the Rust planner's sources are not at hand")]
fn faults_of_what_the_adapter_reads_are_noticed() {
    let cases = planned();
    for (what, words) in READ {
        let printed = |printed: Vec<u8>| exchanged(&printed, words);
        let between = Between { texts: &|case| case, printed: &printed };
        expect_noticed(what, &cases, 2, |case| outcome(case, &between));
    }
}
