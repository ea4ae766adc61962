//! Cases at each limit of document 01 and one past it. What is refused, and where, follows from how a case is made.

use texts::limits::{
    COLUMNS, DEPTH, EXPRESSIONS, FROM_TABLES, GROUPS, INSERTED_NAMES, ITEMS, NAME_BYTES, ORDER_KEYS, ROWS,
    SCOPE_COLUMNS, SETS, TABLES, TEXT_BYTES,
};
use texts::{Refusal, Text};

use super::Case;
use super::known::{Known, Lines, catalog, limited, planned, refused};
use super::wide::most_aggregates;

/// All cases.
pub fn all() -> Vec<Known> {
    let mut cases = Vec::new();
    for past in [0, 1] {
        cases.extend([
            catalog_bytes(past),
            statement_bytes(past),
            tables(past),
            columns(past),
            created_columns(past),
            listed_tables(past),
            joined_tables(past),
            expressions(past),
            expressions_in_a_tree(past),
            depth(past),
            repeated("items", ITEMS, past, &["select"], "item"),
            repeated("groups", GROUPS, past, &["select", "item", "int 1"], "group"),
            repeated("order keys", ORDER_KEYS, past, &["select", "item", "int 1"], "order asc"),
            inserted_names(past),
            sets(past),
            rows(past),
            width(past),
            joined_width(past),
            starred_items(past),
            items_behind_stars(past),
            groups_and_aggregates(past),
            hidden_columns(past),
            name_bytes(past),
        ]);
    }
    cases.push(open_joins());
    cases.push(most_aggregates());
    cases
}

fn catalog_bytes(past: usize) -> Known {
    let mut catalog = b"table\tt\t0\ncolumn\ta\ttext\tnull\ntext\t".to_vec();
    catalog.resize(TEXT_BYTES + past - 1, b'x');
    catalog.push(b'\n');
    let statement = Lines::of(&["drop t no"]).end();
    let refusal = (past > 0).then_some(Refusal { number: 3, text: Text::Catalog, line: 0 });
    Known { what: "bytes of the catalog", case: Case { catalog, statement }, refusal }
}

fn statement_bytes(past: usize) -> Known {
    let mut statement = b"insert\tt0\nrow\t1\ntext\t".to_vec();
    statement.resize(TEXT_BYTES + past - 5, b'x');
    statement.extend_from_slice(b"\nend\n");
    limited("bytes of the statement", (past > 0).then_some(0), catalog(&[1]), statement)
}

fn tables(past: usize) -> Known {
    let catalog = catalog(&vec![1; TABLES + past]);
    let refusal = (past > 0).then_some(Refusal { number: 3, text: Text::Catalog, line: 3 * TABLES + 1 });
    let statement = Lines::of(&["drop t no"]).end();
    Known { what: "tables", case: Case { catalog, statement }, refusal }
}

fn columns(past: usize) -> Known {
    let catalog = catalog(&[COLUMNS + past]);
    let refusal = (past > 0).then_some(Refusal { number: 3, text: Text::Catalog, line: 2 * COLUMNS + 2 });
    let statement = Lines::of(&["delete t0"]).end();
    Known { what: "columns of a table", case: Case { catalog, statement }, refusal }
}

fn created_columns(past: usize) -> Known {
    let mut statement = Lines::of(&["create t"]);
    let mut last = 0;
    for column in 0..COLUMNS + past {
        let key = if column == 0 { "pk" } else { "-" };
        last = statement.add(&format!("column c{column} int {key} - - - -"));
    }
    limited("columns created", (past > 0).then_some(last), vec![], statement.end())
}

fn listed_tables(past: usize) -> Known {
    let mut statement = Lines::of(&["select", "item", "int 1"]);
    let mut last = 0;
    for table in 0..FROM_TABLES + past {
        last = statement.add(&format!("from t0 a{table}"));
    }
    limited("tables in FROM", (past > 0).then_some(last), catalog(&[2]), statement.end())
}

fn joined_tables(past: usize) -> Known {
    let mut statement = Lines::of(&["select", "item", "int 1"]);
    for _ in 1..FROM_TABLES + past {
        statement.push("join right bare");
    }
    let mut last = 0;
    for table in 0..FROM_TABLES + past {
        last = statement.add(&format!("from t0 a{table}"));
    }
    limited("tables in joins", (past > 0).then_some(last), catalog(&[2]), statement.end())
}

fn expressions(past: usize) -> Known {
    let mut statement = Lines::of(&["insert t0"]);
    statement.push(&format!("row {}", EXPRESSIONS + past));
    let mut last = 0;
    for value in 0..EXPRESSIONS + past {
        last = statement.add(&format!("int {value}"));
    }
    limited("expressions in rows", (past > 0).then_some(last), catalog(&[1]), statement.end())
}

fn expressions_in_a_tree(past: usize) -> Known {
    fn tree(statement: &mut Lines, leaves: usize) -> usize {
        if leaves == 1 {
            return statement.add("col c00");
        }
        statement.push("op and");
        tree(statement, leaves / 2);
        tree(statement, leaves - leaves / 2)
    }
    // One item, and 256 leaves under 255 operators; one past that, a `not` in front.
    let mut statement = Lines::of(&["select", "item", "int 1", "from t0", "where"]);
    if past > 0 {
        statement.push("op not");
    }
    let last = tree(&mut statement, EXPRESSIONS / 2);
    limited("expressions in a tree", (past > 0).then_some(last), catalog(&[1]), statement.end())
}

fn depth(past: usize) -> Known {
    let mut statement = Lines::of(&["select", "item"]);
    for _ in 1..DEPTH + past {
        statement.push("op neg");
    }
    let last = statement.add("int 1");
    limited("depth", (past > 0).then_some(last), vec![], statement.end())
}

/// A record with an expression behind it, as often as it may stand or once more.
fn repeated(what: &'static str, most: usize, past: usize, before: &[&str], record: &str) -> Known {
    let mut statement = Lines::of(before);
    let mut last = 0;
    for value in 0..most + past {
        last = statement.add(record);
        statement.push(&format!("int {value}"));
    }
    limited(what, (past > 0).then_some(last), vec![], statement.end())
}

fn inserted_names(past: usize) -> Known {
    let mut statement = Lines::of(&["insert t0", "columns"]);
    let mut last = 0;
    for column in 0..INSERTED_NAMES + past {
        last = statement.add(&format!("name c{column:02}"));
    }
    statement.push("row 0");
    limited("inserted names", (past > 0).then_some(last), catalog(&[COLUMNS]), statement.end())
}

fn sets(past: usize) -> Known {
    let mut statement = Lines::of(&["update t0"]);
    let mut last = 0;
    for column in 0..SETS + past {
        last = statement.add(&format!("set c{column:02}"));
        statement.push("null");
    }
    limited("sets", (past > 0).then_some(last), catalog(&[COLUMNS]), statement.end())
}

fn rows(past: usize) -> Known {
    let mut statement = Lines::of(&["insert t0"]);
    let mut last = 0;
    for _ in 0..ROWS + past {
        last = statement.add("row 0");
    }
    limited("rows", (past > 0).then_some(last), catalog(&[1]), statement.end())
}

fn width(past: usize) -> Known {
    let mut statement = Lines::of(&["select", "item", "star"]);
    for table in 0..SCOPE_COLUMNS / COLUMNS {
        statement.push(&format!("from t0 a{table}"));
    }
    let last = (past > 0).then(|| statement.add("from t1"));
    limited("columns in a list", last, catalog(&[COLUMNS, 1]), statement.end())
}

fn joined_width(past: usize) -> Known {
    let mut statement = Lines::of(&["select", "item", "star"]);
    if past > 0 {
        statement.push("from t1");
    }
    let join = statement.add("join left bare");
    statement.push("join right bare");
    statement.push("join cross bare");
    for table in 0..SCOPE_COLUMNS / COLUMNS {
        statement.push(&format!("from t0 a{table}"));
    }
    limited("columns in a join", (past > 0).then_some(join), catalog(&[COLUMNS, 1]), statement.end())
}

fn starred_items(past: usize) -> Known {
    let mut statement = Lines::of(&["select"]);
    let mut last = 0;
    for _ in 0..SCOPE_COLUMNS / COLUMNS + past {
        statement.push("item");
        last = statement.add("star");
    }
    statement.push("from t0");
    limited("starred items", (past > 0).then_some(last), catalog(&[COLUMNS]), statement.end())
}

fn items_behind_stars(past: usize) -> Known {
    let mut statement = Lines::of(&["select"]);
    for star in 1..SCOPE_COLUMNS / COLUMNS + past {
        statement.push(if star == 1 { "item" } else { "item x" });
        statement.push("star");
    }
    let last = statement.add("item x");
    statement.push("int 1");
    statement.push("from t0");
    limited("items behind stars", (past > 0).then_some(last), catalog(&[COLUMNS]), statement.end())
}

/// The aggregates stand in a function that is refused with 13 where they are not too many.
fn groups_and_aggregates(past: usize) -> Known {
    let mut statement = Lines::of(&["select", "item"]);
    let aggregates = SCOPE_COLUMNS - GROUPS + past;
    let function = statement.add(&format!("fn f {aggregates}"));
    let mut last = 0;
    for value in 0..aggregates {
        last = statement.add("fn sum 1");
        statement.push(&format!("int {}", GROUPS + value));
    }
    for value in 0..GROUPS {
        statement.push("group");
        statement.push(&format!("int {value}"));
    }
    let (number, line) = if past > 0 { (3, last) } else { (13, function) };
    refused("groups and aggregates", number, line, vec![], statement.end())
}

/// 64 items, and the columns of three tables in ORDER BY; one past that, a column of a fourth.
fn hidden_columns(past: usize) -> Known {
    let mut statement = Lines::of(&["select"]);
    for _ in 0..ITEMS {
        statement.push("item");
        statement.push("null");
    }
    (0..4).for_each(|table| statement.push(&format!("from t0 a{table}")));
    let mut last = 0;
    for column in 0..COLUMNS {
        let tables = if past > 0 && column == COLUMNS - 1 { 4 } else { 3 };
        statement.push("order desc");
        (1..tables).for_each(|_| statement.push("op add"));
        for table in 0..tables {
            last = statement.add(&format!("col a{table} c{column:02}"));
        }
    }
    limited("hidden columns", (past > 0).then_some(last), catalog(&[COLUMNS]), statement.end())
}

fn name_bytes(past: usize) -> Known {
    let name = "n".repeat(NAME_BYTES + past);
    let statement = Lines::of(&[&format!("drop {name} yes")]).end();
    match past {
        0 => planned("bytes of a name", vec![], statement),
        _ => refused("bytes of a name", 2, 1, vec![], statement),
    }
}

/// No limit stops a run of joins: what is missing is the first side of the last.
fn open_joins() -> Known {
    let mut statement = Lines::of(&["select", "item", "int 1"]);
    for _ in 0..4_000 {
        statement.push("join inner on");
    }
    let missing = statement.lines + 1;
    refused("open joins", 2, missing, vec![], statement.end())
}
