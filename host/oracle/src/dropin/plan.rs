//! A printed plan as toydb's `Plan`.

use std::collections::HashMap;

use super::cells::{Cells, value};
use super::lines::{lines, number, unknown};
use super::nodes::Nodes;
use crate::sql::planner::Plan;
use crate::sql::types::{Column, DataType, Table};

/// The lines behind those of the nodes.
type Own<'a> = &'a [Vec<&'a str>];

/// Reads a printed plan over the catalog's tables. The error says what is wrong with it.
pub fn read(printed: &[u8], tables: &[Table]) -> Result<Plan, String> {
    let lines = lines(printed)?;
    let ["plan", kind, node_count, cell_count] = lines[0][..] else {
        return unknown(&lines[0]);
    };
    let (node_count, cell_count) = (number(node_count)?, number(cell_count)?);
    let (cell_lines, rest) = lines[1..].split_at_checked(cell_count).ok_or("cells are missing")?;
    let (node_lines, own) = rest.split_at_checked(node_count).ok_or("nodes are missing")?;
    let mut cells = Cells::default();
    for (i, line) in cell_lines.iter().enumerate() {
        cells.add(behind_number(line, "cell", i)?)?;
    }
    let mut nodes = Nodes::new(cells, tables, kind == "select");
    for (i, line) in node_lines.iter().enumerate() {
        nodes.add(behind_number(line, "node", i)?)?;
    }
    statement(kind, own, &mut nodes)
}

/// The fields behind a word and the number that is due.
fn behind_number<'a>(line: &'a [&'a str], word: &str, due: usize) -> Result<&'a [&'a str], String> {
    match line {
        [first, digits, rest @ ..] if *first == word && number::<usize>(digits)? == due => Ok(rest),
        line => unknown(line),
    }
}

fn statement(kind: &str, own: Own, nodes: &mut Nodes) -> Result<Plan, String> {
    let (head, rest) = match own.split_first() {
        Some((head, rest)) => (head.as_slice(), rest),
        None => (&[][..], own),
    };
    let plan = match (kind, head, rest) {
        ("select", [], []) => Plan::Select(nodes.take_last()?),
        ("create", ["create", name, key], columns) => Plan::CreateTable {
            schema: Table { name: name.to_string(), primary_key: number(key)?, columns: created(columns)? },
        },
        ("drop", ["drop", name, if_exists @ ("yes" | "no")], []) => {
            Plan::DropTable { name: name.to_string(), if_exists: *if_exists == "yes" }
        }
        ("delete", ["delete", table, key, source], []) => {
            Plan::Delete { table: table.to_string(), primary_key: number(key)?, source: nodes.take(source)? }
        }
        ("insert", ["insert", table, source], map) => Plan::Insert {
            table: nodes.table(table)?,
            column_map: column_map(map)?,
            source: nodes.take(source)?,
        },
        ("update", ["update", table, key, source], sets) => {
            let mut expressions = Vec::new();
            for set in sets {
                let ["set", position, cell] = set[..] else { return unknown(set) };
                expressions.push((number(position)?, nodes.cells.get(cell)?));
            }
            let (table, primary_key) = (nodes.table(table)?, number(key)?);
            Plan::Update { table, primary_key, source: nodes.take(source)?, expressions }
        }
        (_, head, _) => return unknown(head),
    };
    nodes.expect_none_left()?;
    Ok(plan)
}

/// The columns of a created table: two lines each.
fn created(lines: Own) -> Result<Vec<Column>, String> {
    let mut columns = Vec::new();
    for pair in lines.chunks(2) {
        let [column, default] = pair else { return Err("a column without its default".to_string()) };
        let ["column", name, datatype, nullable, unique, index, reference @ ..] = &column[..] else {
            return unknown(column);
        };
        let given = |field: &str, yes: &str, no: &str| match field {
            _ if field == yes => Ok(true),
            _ if field == no => Ok(false),
            _ => Err(format!("{field:?} is neither {yes} nor {no}")),
        };
        columns.push(Column {
            name: name.to_string(),
            datatype: match *datatype {
                "bool" => DataType::Boolean,
                "int" => DataType::Integer,
                "float" => DataType::Float,
                "text" => DataType::String,
                _ => return unknown(column),
            },
            nullable: given(nullable, "null", "notnull")?,
            default: if default[..] == ["nodefault"] { None } else { Some(value(default)?) },
            unique: given(unique, "unique", "-")?,
            index: given(index, "index", "-")?,
            references: match reference {
                [] => None,
                [name] => Some(name.to_string()),
                _ => return unknown(column),
            },
        });
    }
    Ok(columns)
}

/// The map of an INSERT with names: table position to value position.
fn column_map(lines: Own) -> Result<Option<HashMap<usize, usize>>, String> {
    let Some((head, pairs)) = lines.split_first() else {
        return Ok(None);
    };
    let ["columns", count] = head[..] else { return unknown(head) };
    let mut map = HashMap::new();
    for pair in pairs {
        let ["map", cindex, vindex] = pair[..] else { return unknown(pair) };
        if map.insert(number(cindex)?, number(vindex)?).is_some() {
            return Err(format!("column {cindex} is mapped twice"));
        }
    }
    if map.len() == number::<usize>(count)? { Ok(Some(map)) } else { Err("pairs are missing".to_string()) }
}
