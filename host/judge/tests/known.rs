//! Statements whose answers document 01 and the project's readings of it give.
//!
//! A slash stands for a line end and a blank for a tab.

use judge::compare::{Reason, Verdict, compare};
use judge::generate::Case;
use judge::planning;
use judge::predict::predict;
use judge::random::Random;

const T: &str =
    "table t 0/column a int null/nodefault/column b int null/nodefault/column c int null/nodefault/";
const U: &str = "table u 0/column d int null/nodefault/column e int null/nodefault/";

fn bytes(text: &str) -> Vec<u8> {
    text.replace(' ', "\t").replace('/', "\n").into_bytes()
}

/// The printed answer begins so, does not differ from the Rust planner's, and is that of the proved planner.
fn prints(catalog: &str, statement: &str, listing: &str) {
    let case = Case { catalog: bytes(catalog), statement: bytes(statement) };
    let predicted = predict(&case.catalog, &case.statement).listing;
    assert!(
        predicted.starts_with(&bytes(listing)),
        "{statement}\n expected {listing}\n predicted {}",
        String::from_utf8_lossy(&predicted).replace('\t', " ").replace('\n', "/")
    );
    let verdict = compare(&case, &predicted);
    let held = match verdict {
        Verdict::Agree(_) => true,
        Verdict::Apart(_, Reason::Reading | Reason::NotOfTheRust | Reason::TooLarge) => true,
        Verdict::Apart(_, Reason::NoSources) => !cfg!(planner),
        Verdict::Apart(..) | Verdict::Differ(_) => false,
    };
    assert!(held, "{statement}: {verdict:?}");
    if planning::AVAILABLE {
        assert_eq!(planning::printed(&case, &mut Random::new(1, 1)), Ok(predicted), "{statement}");
    }
}

/// A catalog of one table, `t`, with so many columns `c0`, `c1` ..
fn wide(columns: usize) -> String {
    let columns = (0..columns).map(|i| format!("column c{i} int null/nodefault/"));
    format!("table t 0/{}", columns.collect::<String>())
}

/// Both operands of a `ge` are shared, however deep: 17 names and three cells for each of sixteen.
#[test]
fn sixteen_chained_comparisons() {
    let chain = (0..16).fold("col c16".to_string(), |chain, i| format!("op ge/col c{}/{chain}", 15 - i));
    prints(&wide(17), &format!("select/item/{chain}/from t/end/"), "plan select 2 65/");
}

/// 512 expression cells and 256 columns are taken; one more is 3, at the record that passes the limit.
#[test]
fn cells_and_columns_at_their_limits() {
    let items = format!("item/{}int 1/", "op not/".repeat(7)).repeat(64);
    prints("", &format!("select/{items}end/"), "plan select 2 512/");
    prints("", &format!("select/{items}where/bool t/end/"), "refused 3 statement 579/");
    let four = "table t 0/".to_string() + &"column c int null/nodefault/".repeat(64);
    let star = |joined: &str| format!("select/item/star/from t a/from t b/from t d/from t/{joined}end/");
    prints(&four, &star(""), "plan select 7 0/");
    let one = "table u 0/column c int null/nodefault/";
    prints(&format!("{four}{one}"), &star("from u/"), "refused 3 statement 8/");
}

#[test]
fn p1_the_listing() {
    prints(
        "table heap 0/column id int notnull/nodefault/column p1 float null/nodefault/column p2 float null/nodefault/",
        "select/item/col p1/from heap/where/op ge/col p2/int 55/order asc/col id/end/",
        "plan select 5 8/cell 0 col 2/cell 1 int 55/cell 2 gt 0 1/cell 3 eq 0 1/cell 4 or 2 3/cell 5 col 1/\
         cell 6 col 0/cell 7 col 1/node 0 scan heap/node 1 filter 0 4/node 2 project 1 5 6/\
         node 3 order 2 7 asc/node 4 remap 3 0 -/",
    );
}

#[test]
fn p2_to_p5_cells_and_constants() {
    prints(T, "select/item/op ge/col a/col b/from t/end/", "plan select 2 5/");
    prints("", "select/item/int 1/offset/int 0/end/", "plan select 3 1/");
    prints("", "select/item/int 1/offset/int -1/end/", "refused 18 statement 4/");
    let limit = |expr: &str| format!("select/item/int 1/limit/{expr}/end/");
    let limited = |number: &str| {
        format!(
            "plan select 3 1/cell 0 int 1/node 0 values row 0/node 1 project 0 0/node 2 limit 1 {number}/"
        )
    };
    prints("", &limit("op fact/int 20"), &limited("2432902008176640000"));
    prints("", &limit("op fact/int 21"), "refused 25 statement 5/");
    prints("", &limit("op neg/op div/int -7/int 2"), &limited("3"));
    prints("", &limit("op neg/op rem/int -7/int 2"), &limited("1"));
}

#[test]
fn p6_a_right_join_turns_its_columns() {
    prints(
        &format!("{T}{U}"),
        "select/item/star/join right bare/from u/from t/end/",
        "plan select 4 0/node 0 scan t/node 1 scan u/node 2 join 0 1 outer/node 3 remap 2 2 3 4 0 1/",
    );
}

#[test]
fn p7_to_p10_refusals_of_select() {
    prints(T, "select/item/col a/from t/where/op gt/fn sum 1/col a/int 1/end/", "refused 13 statement 7/");
    prints(T, "select/item/col a/from t/having/bool t/end/", "refused 17 statement 5/");
    let twice = |key: &str| format!("select/item/col a/item/col a/from t/order asc/{key}/end/");
    prints(T, &twice("col a"), "refused 9 statement 8/");
    prints(
        T,
        &twice("col t a"),
        "plan select 3 3/cell 0 col 0/cell 1 col 0/cell 2 col 1/node 0 scan t/node 1 project 0 0 1/node 2 order 1 2 asc/",
    );
    prints(
        T,
        "select/item/star/from t/having/op gt/fn count 1/star/int 1/end/",
        "plan select 3 4/cell 0 bool t/cell 1 col 0/cell 2 int 1/cell 3 gt 1 2/node 0 scan t/\
         node 1 aggregate 0 count 0/node 2 filter 1 3/",
    );
}

#[test]
fn p11_and_p12_stars_and_aliases() {
    prints(
        "table h 0/column p1 int null/nodefault/column p1 int null/nodefault/",
        "select/item/star/item/int 1/from h/end/",
        "plan select 2 3/cell 0 col 1/cell 1 col 1/cell 2 int 1/node 0 scan h/node 1 project 0 0 1 2/",
    );
    let swapped =
        |groups: &str| format!("select/item b/col a/item a/col b/from t/{groups}order asc/col a/end/");
    prints(
        T,
        &swapped(""),
        "plan select 3 3/cell 0 col 0/cell 1 col 1/cell 2 col 1/node 0 scan t/node 1 project 0 0 as b 1 as a/node 2 order 1 2 asc/",
    );
    prints(
        T,
        &swapped("group/col a/group/col b/"),
        "plan select 4 5/cell 0 col 0/cell 1 col 1/cell 2 col 0/cell 3 col 1/cell 4 col 0/node 0 scan t/\
         node 1 aggregate 0 0 1/node 2 project 1 2 as b 3 as a/node 3 order 2 4 asc/",
    );
}

#[test]
fn tables_of_one_name() {
    prints(T, "select/item/star/from t/from t/end/", "refused 6 statement 5/");
    prints(T, "select/item/star/from t u/from t/end/", "plan select 3 0/");
    let catalog = format!("{T}{U}");
    let joined = |key: &str| format!("select/item/int 1/from t/join inner on/from t/from u/{key}/end/");
    prints(&catalog, &joined("col z"), "refused 8 statement 8/");
    prints(&catalog, &joined("bool t"), "refused 6 statement 5/");
}

#[test]
fn hidden_columns() {
    prints(T, "select/item x/col a/from t/group/col a/order asc/col a/end/", "plan select 5 4/");
    prints(
        T,
        "select/item/fn count 1/star/from t/group/col a/order asc/fn sum 1/col a/end/",
        "plan select 5 7/",
    );
    prints(
        T,
        "select/item/op add/col a/int 1/from t/group/col a/group/op add/col a/int 1/order asc/op add/col a/int 1/end/",
        "plan select 5 7/",
    );
    prints(
        T,
        "select/item x/col a/item a/col b/item a/col c/from t/group/col a/group/col b/group/col c/\
         order asc/col a/order asc/col a/end/",
        "plan select 5 10/",
    );
}

#[test]
fn lookups_over_no_columns() {
    prints("", "select/item/int 1/order asc/col a/end/", "refused 8 statement 5/");
    prints("", "select/item/int 1/order asc/col x a/end/", "refused 7 statement 5/");
    prints("", "select/item/fn count 1/star/item/col a/end/", "refused 11 statement 6/");
    prints("", "select/item/int 1/where/col a/end/", "refused 10 statement 5/");
    prints("", "select/item/int 1/group/col a/end/", "refused 10 statement 5/");
}

#[test]
fn aggregates_inside_aggregates() {
    let item = |expr: &str| format!("select/item/{expr}/from t/end/");
    for nested in ["fn f 0", "op add/int 1/fn f 0", "fn sqrt 1/fn sum 1/col a"] {
        prints(T, &item(&format!("fn sum 1/{nested}")), "refused 15 statement 3/");
    }
    for function in ["fn f 2/fn sum 1/col a/int 1", "fn f 2/int 1/fn sum 1/col a", "fn f 2/fn g 0/int 1"] {
        prints(T, &item(&format!("fn sum 1/{function}")), "refused 13 statement 4/");
    }
    prints(T, "select/item/fn sum 1/col a/from t/group/fn sum 1/col a/end/", "refused 13 statement 7/");
    prints(T, &item("fn sum 0"), "refused 14 statement 3/");
    prints(T, &item("fn sum 1/star"), "refused 12 statement 4/");
}

#[test]
fn stars() {
    prints("", "select/item/int 1/item/star/end/", "refused 16 statement 5/");
    prints(T, "select/item x/star/from t/end/", "refused 12 statement 3/");
    prints(T, "select/item x/star/item/star/from t/end/", "plan select 2 6/");
    prints(T, "select/item/star/from t/group/col a/end/", "refused 11 statement 3/");
}

#[test]
fn other_statements() {
    prints(T, "delete z/end/", "refused 5 statement 1/");
    prints(T, "delete t/where/col a/end/", "plan delete 1 1/cell 0 col 0/node 0 scan t 0/delete t 0 0/");
    prints(T, "insert t/row 0/end/", "plan insert 1 0/node 0 values row 0/insert t 0/");
    prints(T, "insert t/columns/row 0/end/", "plan insert 1 0/node 0 values row 0/insert t 0/columns 0/");
    prints(
        T,
        "insert t/columns/name c/name a/row 2/int 1/int 2/end/",
        "plan insert 1 2/cell 0 int 1/cell 1 int 2/node 0 values row 2 0 1/insert t 0/columns 2/map 2 0/map 0 1/",
    );
    prints(T, "insert t/columns/name c/name c/row 0/end/", "refused 23 statement 4/");
    prints(T, "insert t/columns/name z/row 0/end/", "refused 22 statement 3/");
    prints(T, "insert t/row 1/col a/end/", "refused 10 statement 3/");
    prints(T, "update t/set a default/end/", "refused 24 statement 2/");
    prints(T, "update t/set z/int 1/end/", "refused 8 statement 2/");
    prints(T, "update t/set a/int 1/set a/int 2/end/", "refused 2 statement 4/");
    prints("", "create t/end/", "refused 20 statement 1/");
    prints("", "create t/column a int pk - - - -/column b int pk - - - -/end/", "refused 21 statement 3/");
    prints(
        "",
        "create t/column a int pk null - - -/column b text - - unique - default r/text x/end/",
        "plan create 0 0/create t 0/column a int null unique -/null/column b text null unique index r/text x/",
    );
    prints("", "drop t no/end/", "plan drop 0 0/drop t no/");
    prints("", "other/end/", "refused 4 statement 1/");
    prints("", "select/item/op is/int 1/int 2/end/", "refused 29 statement 3/");
    prints("", "select/item/int 1/limit/fn sqrt 1/int 4/end/", "refused 28 statement 5/");
}

#[test]
fn wrong_texts() {
    prints("", "", "refused 2 statement 1/");
    prints("", "select/", "refused 2 statement 2/");
    prints("", "select/item/int 1/end", "refused 2 statement 4/");
    prints("", "select/item/int 1/end/end/", "refused 2 statement 5/");
    prints("", "select/item/int 01/end/", "refused 2 statement 3/");
    prints("", "select/item/text/end/", "refused 2 statement 3/");
    prints("", "select/item/text /end/", "plan select 2 1/cell 0 text /");
    prints("", "select/item/fn f 99999999999999999999999/end/", "refused 2 statement 4/");
    prints("", "other/other/", "refused 2 statement 2/");
    prints("table t 1/column a int null/nodefault/x", "other/end/", "refused 2 catalog 1/");
    prints("table t 1/column a int null/nodefault/column", "other/end/", "refused 2 catalog 4/");
    prints("table t 0/column a int null/", "other/end/", "refused 2 catalog 3/");
    prints("table t 0/column a int null/nodefault/table t 7/", "other/end/", "refused 2 catalog 4/");
}
