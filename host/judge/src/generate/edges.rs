//! Texts at the edges of what a text may be: nested joins, long counts, unclosed lines, NUL bytes, lengths, empty texts and
//! fields. What is refused, and where, follows from how a case is made.

use texts::limits::{FROM_TABLES, TEXT_BYTES};
use texts::{Refusal, Text};

use super::Case;
use super::known::{Known, Lines, catalog, planned, refused};

/// All cases.
pub fn all() -> Vec<Known> {
    let mut cases = Vec::new();
    for on in ["bare", "on"] {
        cases.extend([
            unfinished_joins(on),
            left_chain(on, 4_000),
            left_chain(on, FROM_TABLES),
            left_chain(on, FROM_TABLES - 1),
            right_chain(on, 2_000),
            right_chain(on, FROM_TABLES),
            right_chain(on, FROM_TABLES - 1),
        ]);
    }
    cases.extend(long_counts());
    cases.extend(unclosed_lines());
    cases.extend(nul_bytes());
    cases.extend(lengths());
    cases.extend(empty());
    cases
}

fn select() -> Lines {
    Lines::of(&["select", "item", "int 1"])
}

/// Joins on the left of joins, and a single table: what is missing is the right side of the last.
fn unfinished_joins(on: &str) -> Known {
    let mut statement = select();
    (0..4_000).for_each(|_| statement.push(&format!("join cross {on}")));
    let table = statement.add("from t0");
    refused("unfinished joins", 2, table + 1, catalog(&[1]), statement.end())
}

/// As many joins, each on the left of the one before, with their tables; the 17th table is one too many.
fn left_chain(on: &str, joins: usize) -> Known {
    let mut statement = select();
    (0..joins).for_each(|_| statement.push(&format!("join left {on}")));
    let mut last = 0;
    for table in 0..=joins.min(FROM_TABLES) {
        last = statement.add(&format!("from t0 a{table}"));
        if on == "on" && table > 0 {
            statement.push("null");
        }
    }
    joined("joins on the left", joins, last, statement)
}

/// As many joins, each on the right of the one before.
fn right_chain(on: &str, joins: usize) -> Known {
    let mut statement = select();
    let mut tables = Vec::new();
    for table in 0..joins {
        statement.push(&format!("join inner {on}"));
        tables.push(statement.add(&format!("from t0 a{}", table % 100)));
    }
    tables.push(statement.add(&format!("from t0 a{}", joins % 100)));
    if on == "on" {
        (0..joins).for_each(|_| statement.push("null"));
    }
    joined("joins on the right", joins, tables[joins.min(FROM_TABLES)], statement)
}

/// Planned with sixteen tables, and 3 at the 17th.
fn joined(what: &'static str, joins: usize, last: usize, statement: Lines) -> Known {
    if joins < FROM_TABLES {
        return planned(what, catalog(&[1]), statement.end());
    }
    refused(what, 3, last, catalog(&[1]), statement.end())
}

/// Counts and positions of a hundred digits.
fn long_counts() -> Vec<Known> {
    let many = "9".repeat(100);
    let zeros = format!("{}7", "0".repeat(99));
    let in_catalog = |key: &str| {
        let catalog = Lines::of(&[&format!("table t0 {key}"), "column a int null", "nodefault"]);
        in_catalog("a key position of a hundred digits", catalog.text.into_bytes(), 1)
    };
    let arguments = |count: &str| Lines::of(&["select", "item", &format!("fn f {count}"), "int 1"]).end();
    let rows = |count: &str| Lines::of(&["insert t0", &format!("row {count}"), "int 1"]).end();
    let what = "a count of a hundred digits";
    vec![
        in_catalog(&many),
        in_catalog(&zeros),
        refused(what, 2, 5, vec![], arguments(&many)),
        refused(what, 2, 3, vec![], arguments(&zeros)),
        refused(what, 2, 4, catalog(&[1]), rows(&many)),
        refused(what, 2, 2, catalog(&[1]), rows(&zeros)),
    ]
}

/// Refused with 2 at a line of the catalog.
fn in_catalog(what: &'static str, catalog: Vec<u8>, line: usize) -> Known {
    let case = Case { catalog, statement: Lines::of(&["drop t no"]).end() };
    Known { what, case, refusal: Some(Refusal { number: 2, text: Text::Catalog, line }) }
}

/// Every prefix of two texts that lacks a closing LF is refused at its last line.
fn unclosed_lines() -> Vec<Known> {
    let what = "a last line that is not closed";
    let whole = catalog(&[2]);
    let statement = Lines::of(&["select", "item", "col c00", "from t0", "limit", "int 1"]).end();
    let ends = |text: &[u8]| -> Vec<(usize, usize)> {
        let ends = text.iter().enumerate().filter(|(_, b)| **b == b'\n').map(|(at, _)| at);
        ends.enumerate().map(|(line, at)| (line + 1, at)).collect()
    };
    let mut cases = Vec::new();
    for (line, at) in ends(&whole) {
        cases.push(in_catalog(what, whole[..at].to_vec(), line));
    }
    for (line, at) in ends(&statement) {
        cases.push(refused(what, 2, line, whole.clone(), statement[..at].to_vec()));
    }
    cases
}

/// NUL is a byte like others: a name may have it, a keyword or a number has none.
fn nul_bytes() -> Vec<Known> {
    let what = "NUL bytes";
    let table = || Lines::of(&["table \0 0", "column \0\0 int null", "text \0"]).text.into_bytes();
    vec![
        planned(what, table(), Lines::of(&["select", "item \0", "col \0 \0\0", "from \0"]).end()),
        planned(what, table(), Lines::of(&["insert \0", "row 1", "text \0"]).end()),
        refused(what, 2, 1, table(), Lines::of(&["select\0"]).end()),
        refused(what, 2, 3, table(), Lines::of(&["select", "item", "int 1\0"]).end()),
        refused(what, 2, 3, table(), Lines::of(&["select", "item", "fn f 0\0"]).end()),
        in_catalog(what, Lines::of(&["table t0 0\0"]).text.into_bytes(), 1),
        in_catalog(what, b"\0".to_vec(), 1),
        refused(what, 2, 1, vec![], vec![0]),
        refused(what, 2, 3, vec![], Lines::of(&["drop t no", "end", "\0"]).text.into_bytes()),
    ]
}

/// A text too long is named before anything is read, the catalog first.
fn lengths() -> Vec<Known> {
    let drop = || Lines::of(&["drop t no"]).end();
    let long = |past: usize| vec![b'x'; TEXT_BYTES + past];
    let known = |what, catalog, statement, number, text, line| Known {
        what,
        case: Case { catalog, statement },
        refusal: Some(Refusal { number, text, line }),
    };
    vec![
        known("65,536 bytes with no line", long(0), drop(), 2, Text::Catalog, 1),
        known("65,536 bytes with no line", vec![], long(0), 2, Text::Statement, 1),
        known("65,536 bytes with no line", long(0), long(0), 2, Text::Catalog, 1),
        known("65,537 bytes", long(1), drop(), 3, Text::Catalog, 0),
        known("65,537 bytes", long(1), long(1), 3, Text::Catalog, 0),
        known("65,537 bytes", vec![], long(1), 3, Text::Statement, 0),
        known("65,537 bytes behind a wrong catalog", b"wrong\n".to_vec(), long(1), 3, Text::Statement, 0),
        known("65,536 bytes behind a wrong catalog", b"wrong\n".to_vec(), long(0), 2, Text::Catalog, 1),
        known("65,537 empty lines", vec![], vec![b'\n'; TEXT_BYTES + 1], 3, Text::Statement, 0),
        known("65,536 empty lines", vec![], vec![b'\n'; TEXT_BYTES], 2, Text::Statement, 1),
        known("65,536 tabs", vec![], vec![b'\t'; TEXT_BYTES], 2, Text::Statement, 1),
        known("65,536 tabs", vec![b'\t'; TEXT_BYTES], vec![], 2, Text::Catalog, 1),
    ]
}

/// Empty texts, lines and fields: only a text literal may be empty.
fn empty() -> Vec<Known> {
    let what = "an empty text, line or field";
    let item = |record: &str| Lines::of(&["select", "item", record]).end();
    let other = |before: &[&str]| Lines::of(before).end();
    vec![
        refused(what, 2, 1, vec![], vec![]),
        refused(what, 2, 1, catalog(&[1]), vec![]),
        planned(what, vec![], other(&["drop t no"])),
        in_catalog(what, b"\n".to_vec(), 1),
        in_catalog(what, b"table\t\t0\n".to_vec(), 1),
        in_catalog(what, b"table\tt\t\n".to_vec(), 1),
        refused(what, 2, 1, vec![], b"\n".to_vec()),
        refused(what, 2, 1, vec![], other(&["select ", "item", "int 1"])),
        refused(what, 2, 2, vec![], other(&["select", "item ", "int 1"])),
        planned(what, vec![], item("text ")),
        refused(what, 2, 3, vec![], item("text")),
        refused(what, 2, 3, vec![], item("text  ")),
        refused(what, 2, 3, vec![], item("int ")),
        refused(what, 2, 3, vec![], item("float ")),
        refused(what, 2, 3, vec![], item("bool ")),
        refused(what, 2, 3, vec![], item("null ")),
        refused(what, 2, 3, vec![], item("col ")),
        refused(what, 2, 3, vec![], item("col  a")),
        refused(what, 2, 3, vec![], item("fn  0")),
        refused(what, 2, 3, vec![], item("fn f ")),
        refused(what, 2, 3, vec![], item("op ")),
        refused(what, 2, 3, vec![], item("")),
        refused(what, 2, 4, catalog(&[1]), other(&["select", "item", "int 1", "from t0 "])),
        refused(what, 2, 2, vec![], other(&["drop t no", ""])),
        refused(what, 2, 3, vec![], Lines::of(&["drop t no", "end", ""]).text.into_bytes()),
    ]
}
