//! Answers that are wrong in one place are found to be wrong.

use judge::compare::{Kind, Reason, Verdict, compare, compare_answer};
use judge::generate::{Case, limits};
use judge::listing::{self, Printed};
use oracle::Answer;
use texts::read;

fn bytes(text: &str) -> Vec<u8> {
    text.replace(' ', "\t").replace('/', "\n").into_bytes()
}

fn verdict(statement: &str, listing: &str) -> Verdict {
    let catalog = bytes("table t 0/column a int null/nodefault/column b int null/nodefault/");
    compare(&Case { catalog, statement: bytes(statement) }, &bytes(listing))
}

const STATEMENT: &str =
    "select/item x/col a/item/float 7ff8000000000001/from t u/where/op ge/col b/int 5/order desc/col b/end/";
const LISTING: &str = "plan select 5 9/cell 0 col 1/cell 1 int 5/cell 2 gt 0 1/cell 3 eq 0 1/cell 4 or 2 3/\
    cell 5 col 0/cell 6 float 7ff8000000000001/cell 7 col 1/cell 8 col 2/node 0 scan t as u/node 1 filter 0 4/\
    node 2 project 1 5 as x 6 7/node 3 order 2 8 desc/node 4 remap 3 0 1 -/";

#[test]
#[cfg_attr(not(planner), ignore = "the Rust planner's sources are not at hand")]
fn a_change_in_one_place_differs() {
    assert!(matches!(verdict(STATEMENT, LISTING), Verdict::Agree(_)));
    for (from, to) in [
        ("cell 0 col 1", "cell 0 col 0"),
        ("int 5", "int 6"),
        ("int 5", "float 4014000000000000"),
        ("cell 2 gt 0 1", "cell 2 gt 1 0"),
        ("cell 2 gt 0 1", "cell 2 lt 0 1"),
        ("scan t as u", "scan t"),
        ("scan t as u", "scan u as u"),
        ("5 as x 6", "5 6"),
        ("5 as x 6", "5 6 as x"),
        ("8 desc", "8 asc"),
        ("3 0 1 -", "3 1 0 -"),
        ("3 0 1 -", "3 0 1 2"),
        ("filter 0 4", "filter 0 2"),
    ] {
        let changed = LISTING.replace(from, to);
        assert_ne!(changed, LISTING, "{from}");
        assert!(matches!(verdict(STATEMENT, &changed), Verdict::Differ(_)), "{from} as {to}");
    }
    assert!(matches!(verdict(STATEMENT, "refused 8 statement 3/"), Verdict::Differ(_)));
    assert!(matches!(verdict("delete z/end/", "refused 6 statement 1/"), Verdict::Differ(_)));
    assert!(matches!(verdict("delete z/end/", "refused 5 statement 1/"), Verdict::Agree(_)));
}

#[test]
#[cfg_attr(not(planner), ignore = "the Rust planner's sources are not at hand")]
fn all_nans_are_one() {
    let changed = LISTING.replace("float 7ff8000000000001", "float fff8000000000000");
    assert!(matches!(verdict(STATEMENT, &changed), Verdict::Agree(_)));
}

#[test]
fn a_listing_that_is_not_well_formed_is_refused() {
    assert!(listing::read(&bytes(LISTING)).is_ok());
    for (from, to) in [
        ("plan select 5 9", "plan select 5 8"),
        ("plan select 5 9", "plan explain 5 9"),
        ("cell 3 eq 0 1", "cell 3 eq 0 4"),
        ("cell 3 eq 0 1", "cell 3 eq 0"),
        ("cell 3 eq 0 1", "cell 3 ge 0 1"),
        ("cell 3", "cell 03"),
        ("project 1 5 as x 6 7", "project 1 5 as x 6"),
        ("order 2 8 desc", "order 1 8 desc"),
        ("order 2 8 desc", "order 2 8"),
        ("remap 3 0 1 -/", "remap 3 0 1 -"),
        ("remap 3 0 1 -/", "remap 3 0 1 -/node 5 limit 4 1/"),
        ("scan t as u", "scan t u"),
        ("int 5", "int 05"),
        ("float 7ff8000000000001", "float 7FF8000000000001"),
        ("float 7ff8000000000001", "float 7ff800000000001"),
    ] {
        let changed = LISTING.replace(from, to);
        assert_ne!(changed, LISTING, "{from}");
        assert!(listing::read(&bytes(&changed)).is_err(), "{from} as {to}");
    }
    for wrong in ["", "/", "refused 2 catalog/", "refused x catalog 1/", "refused 2 catalog 1/end/"] {
        assert!(listing::read(&bytes(wrong)).is_err(), "{wrong}");
    }
}

/// The verdict on refusing a LIMIT's expression with 28 at a line; the expression's first record is line 5.
fn limit_refused_at(expr: &str, line: usize) -> Verdict {
    verdict(&format!("select/item/int 1/limit/{expr}/end/"), &format!("refused 28 statement {line}/"))
}

#[test]
#[cfg_attr(not(planner), ignore = "the Rust planner's sources are not at hand")]
fn refusal_28_is_right_only_where_an_operator_is_not_worked_out() {
    let apart = Verdict::Apart(Kind::Refused(28), Reason::NotOfTheRust);
    for (expr, line) in [
        ("fn sqrt 1/int 0", 5),
        ("fn sqrt 1/float bff0000000000000", 5),
        ("op pow/int 2/int -1", 5),
        ("op pow/int 2/float 4000000000000000", 5),
        ("op pow/float 4000000000000000/int 2", 5),
        ("op pow/float 4000000000000000/float 4000000000000000", 5),
        ("op like/text a/text a", 5),
        ("op like/op neg/int 1/op add/int 1/fn sqrt 1/int 4", 10),
        ("fn sqrt 1/fn sqrt 1/int 16", 6),
        ("op and/op like/text a/text b/op div/int 1/int 0", 6),
    ] {
        assert_eq!(limit_refused_at(expr, line), apart, "{expr}");
        for wrong in [0, line - 1, line + 1] {
            assert!(matches!(limit_refused_at(expr, wrong), Verdict::Differ(_)), "{expr} at {wrong}");
        }
    }
    for (expr, line) in [
        ("op add/int 1/int 2", 5),
        ("op fact/int 3", 5),
        ("op pow/int 2/int 3", 5),
        ("op pow/text a/int -1", 5),
        ("op pow/null/float 4000000000000000", 5),
        ("fn sqrt 1/int -1", 5),
        ("fn sqrt 1/text a", 5),
        ("fn sqrt 1/null", 5),
        ("op like/text a/null", 5),
        ("op like/text a/int 1", 5),
        // The Rust refuses before it comes to the operator.
        ("op and/op div/int 1/int 0/op like/text a/text b", 9),
        ("op add/fn sqrt 1/int 4/col a", 6),
        ("fn sqrt 1/op div/int 1/int 0", 5),
    ] {
        assert!(matches!(limit_refused_at(expr, line), Verdict::Differ(_)), "{expr}");
    }
    for statement in [
        "select/item/col nowhere/limit/fn sqrt 1/int 4/end/",
        "select/item/fn sqrt 1/int 4/end/",
        "insert t/row 3/int 1/int 2/fn sqrt 1/int 4/end/",
        "create t/column a int - - - - default/fn sqrt 1/int 4/end/",
    ] {
        let line = statement.split('/').position(|record| record == "fn sqrt 1").expect("a record") + 1;
        let printed = format!("refused 28 statement {line}/");
        assert!(matches!(verdict(statement, &printed), Verdict::Differ(_)), "{statement}");
    }
    // What the Rust works out and document 01 refuses.
    let statement = "create t/column a float pk - - - default/fn sqrt 1/int 4/end/";
    let planned = "plan create 0 0/create t 0/column a float notnull unique -/float 4000000000000000/";
    let Verdict::Differ(message) = verdict(statement, planned) else { panic!("28 is due") };
    assert!(message.contains("28 is due at line 3"), "{message}");
}

#[test]
fn a_good_text_may_not_be_refused_by_reading() {
    for number in [1, 2, 4] {
        for (text, line) in [("catalog", 0), ("catalog", 1), ("statement", 0), ("statement", 1)] {
            let printed = format!("refused {number} {text} {line}/");
            assert!(matches!(verdict(STATEMENT, &printed), Verdict::Differ(_)), "{printed}");
        }
    }
}

#[test]
fn a_wrong_text_is_refused_as_the_host_reads_it() {
    let right = Verdict::Apart(Kind::Refused(2), Reason::Reading);
    assert_eq!(verdict("drop t maybe/end/", "refused 2 statement 1/"), right);
    for wrong in [
        "refused 2 statement 2/",
        "refused 2 catalog 1/",
        "refused 3 statement 1/",
        "refused 4 statement 1/",
        "refused 5 statement 1/",
        "plan drop 0 0/drop t no/",
    ] {
        assert!(matches!(verdict("drop t maybe/end/", wrong), Verdict::Differ(_)), "{wrong}");
    }
}

#[test]
#[cfg_attr(not(planner), ignore = "the Rust planner's sources are not at hand")]
fn a_limit_that_nothing_passes_is_no_refusal() {
    assert!(matches!(verdict(STATEMENT, "refused 3 statement 3/"), Verdict::Differ(_)));
}

#[test]
#[cfg_attr(not(planner), ignore = "the Rust planner's sources are not at hand")]
fn a_plan_of_too_many_columns_differs() {
    let mut wide = limits::all().into_iter().filter(|known| known.what == "columns in a list");
    let (_, Some(past)) = (wide.next(), wide.next()) else { panic!("at the limit, and past it") };
    assert_eq!(past.refusal.map(|refusal| refusal.number), Some(3));
    let mut printed = "plan select 9 0/node 0 scan t0 as a0/".to_string();
    for (table, scan) in ["t0 as a1", "t0 as a2", "t0 as a3", "t1"].iter().enumerate() {
        let node = 2 * table + 1;
        printed += &format!("node {node} scan {scan}/node {} join {} {node} inner/", node + 1, node - 1);
    }
    let Verdict::Differ(message) = compare(&past.case, &bytes(&printed)) else { panic!("3 is due") };
    assert!(message.contains("3 is due"), "{message}");
}

#[test]
fn only_known_traps_are_apart() {
    let texts =
        read(b"", &bytes("select/item/int 1/limit/op neg/int -9223372036854775808/end/")).expect("good");
    let verdict = |number: u8, message: &str| {
        let printed = Printed::Refused { number, text: "statement".to_string(), line: 5 };
        compare_answer(Kind::Refused(number), &printed, &texts, &Answer::Trapped(message.to_string()))
    };
    let overflow = "attempt to negate with overflow";
    assert_eq!(verdict(25, overflow), Verdict::Apart(Kind::Refused(25), Reason::Trap));
    let invalid = "invalid IS value Integer(1)";
    assert_eq!(verdict(29, invalid), Verdict::Apart(Kind::Refused(29), Reason::NotOfTheRust));
    for (number, message) in [
        (29, overflow),
        (25, invalid),
        (26, overflow),
        (25, "attempt to add with overflow"),
        (25, "index out of bounds: the len is 0 but the index is 0"),
        (29, "called `Option::unwrap()` on a `None` value"),
        (25, ""),
    ] {
        assert!(matches!(verdict(number, message), Verdict::Differ(_)), "{number}: {message}");
    }
}
