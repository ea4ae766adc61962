//! The columns of the widest node of a plan's tree.

use texts::{Table, Tree};

/// The most columns that a node of a SELECT's plan has. Document 01 allows 256; the Rust has no limit.
pub fn columns(plan: &Tree, tables: &[Table]) -> usize {
    let mut widest = 0;
    if let Tree::List("select", parts) = plan {
        node(&parts[0], tables, &mut widest);
    }
    widest
}

/// The columns of a node; the widest of it and its sources is kept.
fn node(tree: &Tree, tables: &[Table], widest: &mut usize) -> usize {
    let Tree::List(head, parts) = tree else {
        unreachable!("a node is a list");
    };
    let columns = match *head {
        "scan" => width_of(&parts[0], tables),
        "values" => 0,
        "join" => node(&parts[0], tables, widest) + node(&parts[1], tables, widest),
        "aggregate" | "project" | "remap" => {
            node(&parts[0], tables, widest);
            parts.len() - 1
        }
        _ => node(&parts[0], tables, widest),
    };
    *widest = columns.max(*widest);
    columns
}

fn width_of(name: &Tree, tables: &[Table]) -> usize {
    let found = tables.iter().find(|table| matches!(name, Tree::Bytes(bytes) if *bytes == table.name));
    found.expect("the plan scans a table of the catalog").columns.len()
}
