//! Cases with two faults, where document 01 says which of them is named.

use texts::limits::{COLUMNS, EXPRESSIONS, FROM_TABLES, GROUPS, ITEMS, SCOPE_COLUMNS, TABLES, TEXT_BYTES};
use texts::{Refusal, Text};

use super::Case;
use super::known::{Known, Lines, catalog, refused};

/// All cases.
pub fn all() -> Vec<Known> {
    vec![
        long_statement_and_wrong_catalog(),
        wrong_catalog_and_statement(),
        repeated_table_past_the_limit(),
        column_past_the_limit_and_key(),
        wrong_expression_past_the_limit(),
        wrong_from_past_the_limit(),
        wrong_item_past_the_limit(),
        left_over_behind_other(),
        clash_and_width(),
        width_and_predicate(),
        predicate_and_clash(),
        star_and_where(),
        expansion_and_where(),
        aggregate_and_their_number(),
        group_and_aggregate(),
        item_and_hidden_columns(),
        hidden_columns_and_order(),
        having_and_order(),
        offset_and_limit(),
        where_and_set(),
        keys_and_default(),
        name_and_row(),
    ]
}

/// A case that is refused at a line of the catalog.
fn refused_in_catalog(
    what: &'static str,
    number: u8,
    line: usize,
    catalog: Vec<u8>,
    statement: Vec<u8>,
) -> Known {
    let refusal = Some(Refusal { number, text: Text::Catalog, line });
    Known { what, case: Case { catalog, statement }, refusal }
}

fn long_statement_and_wrong_catalog() -> Known {
    let statement = vec![b'x'; TEXT_BYTES + 1];
    refused("a long statement and a wrong catalog", 3, 0, b"x\n".to_vec(), statement)
}

fn wrong_catalog_and_statement() -> Known {
    refused_in_catalog("both texts wrong", 2, 1, b"x\n".to_vec(), b"y\n".to_vec())
}

fn repeated_table_past_the_limit() -> Known {
    let mut catalog = catalog(&[1; TABLES]);
    catalog.extend_from_slice(b"table\tt0\t0\n");
    let line = 3 * TABLES + 1;
    refused_in_catalog("a table too many of a known name", 2, line, catalog, b"other\nend\n".to_vec())
}

fn column_past_the_limit_and_key() -> Known {
    let catalog = String::from_utf8(catalog(&[COLUMNS + 1])).expect("the catalog is ASCII");
    let catalog = catalog.replacen("t0\t0", "t0\t65", 1).into_bytes();
    let line = 2 * COLUMNS + 2;
    refused_in_catalog("a column too many and the key", 3, line, catalog, b"other\nend\n".to_vec())
}

fn wrong_expression_past_the_limit() -> Known {
    let mut statement = Lines::of(&["insert t0"]);
    statement.push(&format!("row {}", EXPRESSIONS + 1));
    (0..EXPRESSIONS).for_each(|_| statement.push("null"));
    let line = statement.add("null null");
    refused("an expression too many, and wrong", 2, line, catalog(&[1]), statement.end())
}

fn wrong_from_past_the_limit() -> Known {
    let mut statement = Lines::of(&["select", "item", "int 1"]);
    (0..FROM_TABLES).for_each(|_| statement.push("from t0"));
    let line = statement.add("from");
    refused("a table too many, and wrong", 2, line, catalog(&[1]), statement.end())
}

fn wrong_item_past_the_limit() -> Known {
    let mut statement = Lines::of(&["select"]);
    for _ in 0..ITEMS {
        statement.push("item");
        statement.push("null");
    }
    let line = statement.add("item x y");
    refused("an item too many, and wrong", 2, line, vec![], statement.end())
}

fn left_over_behind_other() -> Known {
    let statement = Lines::of(&["other", "end"]).end();
    refused("other, and a line left over", 2, 3, vec![], statement)
}

fn clash_and_width() -> Known {
    let mut statement = Lines::of(&["select", "item", "int 1"]);
    (0..SCOPE_COLUMNS / COLUMNS).for_each(|table| statement.push(&format!("from t0 a{table}")));
    let line = statement.add("from t0 a0");
    refused("a name held and the width", 6, line, catalog(&[COLUMNS]), statement.end())
}

fn width_and_predicate() -> Known {
    let mut statement = Lines::of(&["select", "item", "int 1", "join inner on"]);
    (1..SCOPE_COLUMNS / COLUMNS).for_each(|_| statement.push("join inner bare"));
    (0..SCOPE_COLUMNS / COLUMNS).for_each(|table| statement.push(&format!("from t0 a{table}")));
    let line = statement.add("from t0 z");
    statement.push("col nowhere");
    refused("the width and a predicate", 3, line, catalog(&[COLUMNS]), statement.end())
}

fn predicate_and_clash() -> Known {
    let mut statement =
        Lines::of(&["select", "item", "int 1", "from t0", "join left on", "from t0", "from t1"]);
    let line = statement.add("col nowhere");
    refused("a predicate and a name held", 8, line, catalog(&[1, 1]), statement.end())
}

fn star_and_where() -> Known {
    let statement = Lines::of(&["select", "item", "star", "where", "col a"]).end();
    refused("a star over no columns and WHERE", 16, 3, vec![], statement)
}

fn expansion_and_where() -> Known {
    let mut statement = Lines::of(&["select"]);
    let mut line = 0;
    for _ in 0..=SCOPE_COLUMNS / COLUMNS {
        statement.push("item");
        line = statement.add("star");
    }
    ["from t0", "where", "col nowhere"].iter().for_each(|record| statement.push(record));
    refused("an expansion and WHERE", 3, line, catalog(&[COLUMNS]), statement.end())
}

/// One more group or aggregate than may stand, the last with no argument: that is refused first.
fn aggregate_and_their_number() -> Known {
    let mut statement = Lines::of(&["select", "item"]);
    let aggregates = SCOPE_COLUMNS - GROUPS + 1;
    statement.push(&format!("fn f {aggregates}"));
    for value in 1..aggregates {
        statement.push("fn sum 1");
        statement.push(&format!("int {}", GROUPS + value));
    }
    let line = statement.add("fn sum 0");
    for value in 0..GROUPS {
        statement.push("group");
        statement.push(&format!("int {value}"));
    }
    refused("an aggregate and their number", 14, line, vec![], statement.end())
}

fn group_and_aggregate() -> Known {
    let statement = Lines::of(&["select", "item", "fn sum 0", "from t0", "group", "col nowhere"]).end();
    refused("a group and an aggregate", 8, 6, catalog(&[1]), statement)
}

/// Items, and a hidden column too many in ORDER BY.
fn hidden_too_many(last_item: &str, before_hidden: &str) -> Lines {
    let mut statement = Lines::of(&["select"]);
    for item in 1..=ITEMS {
        statement.push("item");
        statement.push(if item == ITEMS { last_item } else { "null" });
    }
    (0..4).for_each(|table| statement.push(&format!("from t0 a{table}")));
    statement.push("order asc");
    statement.push(before_hidden);
    for column in 1..COLUMNS {
        statement.push("order asc");
        (1..4).for_each(|_| statement.push("op add"));
        (0..4).for_each(|table| statement.push(&format!("col a{table} c{column:02}")));
    }
    statement
}

fn item_and_hidden_columns() -> Known {
    let statement = hidden_too_many("col nowhere", "null").end();
    refused("an item and the hidden columns", 8, 2 * ITEMS + 1, catalog(&[COLUMNS]), statement)
}

/// The first key is unknown; the columns that are hidden for the later ones are too many.
fn hidden_columns_and_order() -> Known {
    let statement = hidden_too_many("null", "col nowhere");
    // Each key has its record, three operators and four columns; the 193rd column is the first of the 49th such key.
    let keys = (SCOPE_COLUMNS - ITEMS) / 4;
    let line = 1 + 2 * ITEMS + 4 + 2 + 8 * keys + 5;
    refused("the hidden columns and ORDER BY", 3, line, catalog(&[COLUMNS]), statement.end())
}

fn having_and_order() -> Known {
    let statement = Lines::of(&["select", "item", "int 1", "having", "col a", "order asc", "star"]).end();
    refused("HAVING and ORDER BY", 17, 4, vec![], statement)
}

fn offset_and_limit() -> Known {
    let statement = Lines::of(&["select", "item", "int 1", "offset", "null", "limit", "int -1"]).end();
    refused("OFFSET and LIMIT", 18, 4, vec![], statement)
}

fn where_and_set() -> Known {
    let statement = Lines::of(&["update t0", "set nowhere", "int 1", "where", "star"]).end();
    refused("WHERE and a set", 12, 5, catalog(&[1]), statement)
}

fn keys_and_default() -> Known {
    let columns = ["column a int pk - - - default", "col a", "column b int pk - - - -"];
    let mut statement = Lines::of(&["create t"]);
    columns.iter().for_each(|record| statement.push(record));
    refused("two keys and a default", 21, 4, vec![], statement.end())
}

fn name_and_row() -> Known {
    let statement = Lines::of(&["insert t0", "columns", "name c00", "name c00", "row 1", "col a"]).end();
    refused("a name twice and a row", 23, 4, catalog(&[1]), statement)
}
