//! Writing of the two texts.

use crate::{Expr, ExprKind, From, Literal, NewColumn, Select, Set, Statement, Table};

/// Writes a catalog.
pub fn write_catalog(tables: &[Table]) -> Vec<u8> {
    let mut out = Vec::new();
    for table in tables {
        record(&mut out, &[b"table", &table.name, table.key.to_string().as_bytes()]);
        for column in &table.columns {
            let nullable: &[u8] = if column.nullable { b"null" } else { b"notnull" };
            record(&mut out, &[b"column", &column.name, column.datatype.word().as_bytes(), nullable]);
            match &column.default {
                Some(literal) => out.extend(literal_record(literal)),
                None => record(&mut out, &[b"nodefault"]),
            }
        }
    }
    out
}

/// Writes a statement, with its `end`.
pub fn write_statement(statement: &Statement) -> Vec<u8> {
    let mut out = Vec::new();
    match statement {
        Statement::Select(select) => write_select(&mut out, select),
        Statement::Delete { table, filter, .. } => {
            record(&mut out, &[b"delete", table]);
            write_clause(&mut out, "where", filter.as_ref());
        }
        Statement::Insert { table, names, rows, .. } => {
            record(&mut out, &[b"insert", table]);
            if let Some(names) = names {
                record(&mut out, &[b"columns"]);
                for (_, name) in names {
                    record(&mut out, &[b"name", name]);
                }
            }
            for row in rows {
                record(&mut out, &[b"row", row.len().to_string().as_bytes()]);
                row.iter().for_each(|expr| write_expression(&mut out, expr));
            }
        }
        Statement::Update { table, sets, filter, .. } => {
            record(&mut out, &[b"update", table]);
            sets.iter().for_each(|set| write_set(&mut out, set));
            write_clause(&mut out, "where", filter.as_ref());
        }
        Statement::Create { name, columns, .. } => {
            record(&mut out, &[b"create", name]);
            columns.iter().for_each(|column| write_new_column(&mut out, column));
        }
        Statement::Drop { name, if_exists } => {
            record(&mut out, &[b"drop", name, if *if_exists { b"yes" } else { b"no" }]);
        }
        Statement::Other { .. } => record(&mut out, &[b"other"]),
    }
    record(&mut out, &[b"end"]);
    out
}

/// A literal record with its LF.
pub fn literal_record(literal: &Literal) -> Vec<u8> {
    let mut out = Vec::new();
    match literal {
        Literal::Null => record(&mut out, &[b"null"]),
        Literal::Bool(value) => record(&mut out, &[b"bool", if *value { b"t" } else { b"f" }]),
        Literal::Int(value) => record(&mut out, &[b"int", value.to_string().as_bytes()]),
        Literal::Float(bits) => record(&mut out, &[b"float", format!("{bits:016x}").as_bytes()]),
        Literal::Text(bytes) => record(&mut out, &[b"text", bytes]),
    }
    out
}

fn record(out: &mut Vec<u8>, fields: &[&[u8]]) {
    out.extend(fields.join(&b'\t'));
    out.push(b'\n');
}

fn write_expression(out: &mut Vec<u8>, expr: &Expr) {
    match &expr.kind {
        ExprKind::Star => record(out, &[b"star"]),
        ExprKind::Column { table: None, name } => record(out, &[b"col", name]),
        ExprKind::Column { table: Some(table), name } => record(out, &[b"col", table, name]),
        ExprKind::Literal(literal) => out.extend(literal_record(literal)),
        ExprKind::Function { name, arguments } => {
            record(out, &[b"fn", name, arguments.len().to_string().as_bytes()])
        }
        ExprKind::Operator(operator, _) => record(out, &[b"op", operator.word().as_bytes()]),
        ExprKind::Is(..) => record(out, &[b"op", b"is"]),
    }
    expr.operands().iter().for_each(|operand| write_expression(out, operand));
    if let ExprKind::Is(_, literal) = &expr.kind {
        out.extend(literal_record(literal));
    }
}

fn write_clause(out: &mut Vec<u8>, word: &str, expr: Option<&Expr>) {
    if let Some(expr) = expr {
        record(out, &[word.as_bytes()]);
        write_expression(out, expr);
    }
}

fn write_select(out: &mut Vec<u8>, select: &Select) {
    record(out, &[b"select"]);
    for item in &select.items {
        match &item.alias {
            Some(alias) => record(out, &[b"item", alias]),
            None => record(out, &[b"item"]),
        }
        write_expression(out, &item.expr);
    }
    select.from.iter().for_each(|from| write_from(out, from));
    write_clause(out, "where", select.filter.as_ref());
    select.groups.iter().for_each(|group| write_clause(out, "group", Some(group)));
    write_clause(out, "having", select.having.as_ref().map(|clause| &clause.expr));
    for key in &select.order {
        record(out, &[b"order", key.direction.word().as_bytes()]);
        write_expression(out, &key.expr);
    }
    write_clause(out, "offset", select.offset.as_ref().map(|clause| &clause.expr));
    write_clause(out, "limit", select.limit.as_ref().map(|clause| &clause.expr));
}

fn write_from(out: &mut Vec<u8>, from: &From) {
    match from {
        From::Table { name, alias: None, .. } => record(out, &[b"from", name]),
        From::Table { name, alias: Some(alias), .. } => record(out, &[b"from", name, alias]),
        From::Join { kind, left, right, predicate, .. } => {
            let on: &[u8] = if predicate.is_some() { b"on" } else { b"bare" };
            record(out, &[b"join", kind.word().as_bytes(), on]);
            write_from(out, left);
            write_from(out, right);
            predicate.iter().for_each(|predicate| write_expression(out, predicate));
        }
    }
}

fn write_set(out: &mut Vec<u8>, set: &Set) {
    match &set.expr {
        Some(expr) => {
            record(out, &[b"set", &set.name]);
            write_expression(out, expr);
        }
        None => record(out, &[b"set", &set.name, b"default"]),
    }
}

fn write_new_column(out: &mut Vec<u8>, column: &NewColumn) {
    let given = |word: &'static str, given: bool| if given { word.as_bytes() } else { b"-" };
    let nullable: &[u8] = match column.nullable {
        Some(true) => b"null",
        Some(false) => b"notnull",
        None => b"-",
    };
    let mut fields = vec![
        b"column".as_slice(),
        &column.name,
        column.datatype.word().as_bytes(),
        given("pk", column.key),
        nullable,
        given("unique", column.unique),
        given("index", column.index),
        given("default", column.default.is_some()),
    ];
    fields.extend(column.reference.as_deref());
    record(out, &fields);
    column.default.iter().for_each(|default| write_expression(out, default));
}
