//! The statements other than SELECT.

use texts::{Expr, Literal, Name, NewColumn, Refusal, Row, Set, Table, literal_record};

use super::constant::constant;
use super::from::table;
use super::plan::{Fields, Node, Plan};
use super::scope::Scope;

pub fn delete(tables: &[Table], line: usize, name: &Name, filter: Option<&Expr>) -> Result<Vec<u8>, Refusal> {
    let table = table(tables, name, line)?;
    let mut plan = Plan::default();
    let source = plan.scan(table, filter)?;
    let mut out = plan.print("delete");
    out.extend(over_source("delete", table, source).line());
    Ok(out)
}

pub fn insert(
    tables: &[Table],
    line: usize,
    name: &Name,
    names: Option<&[(usize, Name)]>,
    rows: &[Row],
) -> Result<Vec<u8>, Refusal> {
    let table = table(tables, name, line)?;
    let positions = names.map(|names| positions(table, names)).transpose()?;
    let mut plan = Plan::default();
    let mut fields = Fields::new("values");
    for row in rows {
        fields.word("row");
        fields.number(row.len());
        for expr in row {
            fields.number(plan.expression(expr, &Scope::default())?);
        }
    }
    let source = plan.node(fields);
    let mut out = plan.print("insert");
    let mut own = Fields::new("insert");
    own.bytes(name);
    own.number(source);
    out.extend(own.line());
    if let Some(positions) = positions {
        out.extend(format!("columns\t{}\n", positions.len()).into_bytes());
        for (value, column) in positions.iter().enumerate() {
            out.extend(format!("map\t{column}\t{value}\n").into_bytes());
        }
    }
    Ok(out)
}

/// The table position of each inserted name.
fn positions(table: &Table, names: &[(usize, Name)]) -> Result<Vec<usize>, Refusal> {
    let mut positions = Vec::new();
    for (line, name) in names {
        let position = table
            .columns
            .iter()
            .position(|column| column.name == *name)
            .ok_or(Refusal::in_statement(22, *line))?;
        if positions.contains(&position) {
            return Err(Refusal::in_statement(23, *line));
        }
        positions.push(position);
    }
    Ok(positions)
}

pub fn update(
    tables: &[Table],
    line: usize,
    name: &Name,
    sets: &[Set],
    filter: Option<&Expr>,
) -> Result<Vec<u8>, Refusal> {
    let table = table(tables, name, line)?;
    let scope = Scope::of_table(table, name);
    let mut plan = Plan::default();
    let source = plan.scan(table, filter)?;
    let mut lines = over_source("update", table, source).line();
    for set in sets {
        let refuse = |number| Refusal::in_statement(number, set.line);
        let position = scope.lookup(None, &set.name).map_err(refuse)?;
        let cell = match (&set.expr, &table.columns[position].default) {
            (Some(expr), _) => plan.expression(expr, &scope)?,
            (None, Some(default)) => plan.literal(default),
            (None, None) => return Err(refuse(24)),
        };
        lines.extend(format!("set\t{position}\t{cell}\n").into_bytes());
    }
    let mut out = plan.print("update");
    out.extend(lines);
    Ok(out)
}

pub fn create(line: usize, name: &Name, columns: &[NewColumn]) -> Result<Vec<u8>, Refusal> {
    let mut keys = columns.iter().enumerate().filter(|(_, column)| column.key);
    let Some((key, _)) = keys.next() else {
        return Err(Refusal::in_statement(20, line));
    };
    if let Some((_, second)) = keys.next() {
        return Err(Refusal::in_statement(21, second.line));
    }
    let mut out = Plan::default().print("create");
    let mut own = Fields::new("create");
    own.bytes(name);
    own.number(key);
    out.extend(own.line());
    for column in columns {
        out.extend(new_column(column)?);
    }
    Ok(out)
}

/// The lines of a created column: its own and its default's.
fn new_column(column: &NewColumn) -> Result<Vec<u8>, Refusal> {
    let nullable = column.nullable.unwrap_or(!column.key);
    let unique = column.unique || column.key;
    let index = (column.index || column.unique || column.reference.is_some()) && !column.key;
    let mut fields = Fields::new("column");
    fields.bytes(&column.name);
    fields.word(column.datatype.word());
    fields.word(if nullable { "null" } else { "notnull" });
    fields.word(if unique { "unique" } else { "-" });
    fields.word(if index { "index" } else { "-" });
    column.reference.iter().for_each(|reference| fields.bytes(reference));
    let mut out = fields.line();
    out.extend(match &column.default {
        Some(expr) => literal_record(&constant(expr)?),
        None if nullable => literal_record(&Literal::Null),
        None => b"nodefault\n".to_vec(),
    });
    Ok(out)
}

pub fn drop(name: &Name, if_exists: bool) -> Vec<u8> {
    let mut out = Plan::default().print("drop");
    let mut own = Fields::new("drop");
    own.bytes(name);
    own.word(if if_exists { "yes" } else { "no" });
    out.extend(own.line());
    out
}

/// A statement's own line: table, key position and source.
fn over_source(word: &str, table: &Table, source: Node) -> Fields {
    let mut own = Fields::new(word);
    own.bytes(&table.name);
    own.number(table.key);
    own.number(source);
    own
}

impl Plan {
    /// The scan of a table with any WHERE in it.
    fn scan(&mut self, table: &Table, filter: Option<&Expr>) -> Result<Node, Refusal> {
        let scope = Scope::of_table(table, &table.name);
        let mut fields = Fields::new("scan");
        fields.bytes(&table.name);
        if let Some(filter) = filter {
            fields.number(self.expression(filter, &scope)?);
        }
        Ok(self.node(fields))
    }
}
