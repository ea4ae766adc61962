//! A catalog and a SELECT as SQL, with no more parentheses than they need.

use texts::{DataType, Expr, ExprKind, From, Item, JoinKind, Literal, Operator, Select, Statement, Table};

/// The statement that makes a table.
pub fn create(table: &Table) -> String {
    let column = |(position, column): (usize, &texts::Column)| {
        let key = if position == table.key { " PRIMARY KEY" } else { "" };
        let nullable = if column.nullable { "" } else { " NOT NULL" };
        format!("{} {}{nullable}{key}", name(&column.name), datatype(column.datatype))
    };
    let columns: Vec<_> = table.columns.iter().enumerate().map(column).collect();
    format!("CREATE TABLE {} ({})", name(&table.name), columns.join(", "))
}

fn datatype(datatype: DataType) -> &'static str {
    match datatype {
        DataType::Bool => "BOOLEAN",
        DataType::Int => "INTEGER",
        DataType::Float => "REAL",
        DataType::Text => "TEXT",
    }
}

/// A SELECT. None where SQLite has no words for it, and for other statements.
pub fn question(statement: &Statement) -> Option<String> {
    match statement {
        Statement::Select(select) => self::select(select),
        _ => None,
    }
}

fn select(select: &Select) -> Option<String> {
    let mut sql = format!("SELECT {}", listed(&select.items, item)?);
    if !select.from.is_empty() {
        sql += &format!(" FROM {}", listed(&select.from, from)?);
    }
    if let Some(filter) = &select.filter {
        sql += &format!(" WHERE {}", expression(filter)?);
    }
    if !select.groups.is_empty() {
        sql += &format!(" GROUP BY {}", listed(&select.groups, expression)?);
    }
    if let Some(having) = &select.having {
        sql += &format!(" HAVING {}", expression(&having.expr)?);
    }
    if !select.order.is_empty() {
        let key = |key: &texts::OrderKey| {
            let descending = key.direction == texts::Direction::Descending;
            Some(expression(&key.expr)? + if descending { " DESC" } else { "" })
        };
        sql += &format!(" ORDER BY {}", listed(&select.order, key)?);
    }
    if select.offset.is_some() || select.limit.is_some() {
        return None;
    }
    Some(sql)
}

fn listed<T>(parts: &[T], part: impl Fn(&T) -> Option<String>) -> Option<String> {
    Some(parts.iter().map(part).collect::<Option<Vec<_>>>()?.join(", "))
}

fn item(item: &Item) -> Option<String> {
    let expr = expression(&item.expr)?;
    Some(match &item.alias {
        Some(alias) => format!("{expr} AS {}", name(alias)),
        None => expr,
    })
}

fn from(from: &From) -> Option<String> {
    match from {
        From::Table { name: table, alias: None, .. } => Some(name(table)),
        From::Table { name: table, alias: Some(alias), .. } => {
            Some(format!("{} {}", name(table), name(alias)))
        }
        From::Join { kind, left, right, predicate, .. } => {
            let join = match kind {
                JoinKind::Cross => "CROSS JOIN",
                JoinKind::Inner => "JOIN",
                JoinKind::Left => "LEFT JOIN",
                JoinKind::Right => "RIGHT JOIN",
            };
            let From::Table { .. } = **right else {
                return None;
            };
            let sides = format!("{} {join} {}", self::from(left)?, self::from(right)?);
            Some(match predicate {
                Some(predicate) => format!("{sides} ON {}", expression(predicate)?),
                None => sides,
            })
        }
    }
}

fn expression(expr: &Expr) -> Option<String> {
    match &expr.kind {
        ExprKind::Star => Some("*".to_string()),
        ExprKind::Column { table: None, name } => Some(self::name(name)),
        ExprKind::Column { table: Some(table), name } => {
            Some(format!("{}.{}", self::name(table), self::name(name)))
        }
        ExprKind::Literal(Literal::Int(value)) => Some(value.to_string()),
        ExprKind::Literal(_) | ExprKind::Is(..) => None,
        ExprKind::Function { name, arguments } => {
            Some(format!("{}({})", self::name(name), listed(arguments, expression)?))
        }
        ExprKind::Operator(operator, operands) => match operands.as_slice() {
            [left, right] => {
                let (word, binding) = binary(*operator)?;
                Some(format!("{} {word} {}", operand(left, binding)?, operand(right, binding + 1)?))
            }
            _ => None,
        },
    }
}

/// An operand that binds at least so closely, else in parentheses.
fn operand(expr: &Expr, least: u8) -> Option<String> {
    let sql = expression(expr)?;
    match expr.kind {
        ExprKind::Operator(operator, _) if binary(operator)?.1 < least => Some(format!("({sql})")),
        _ => Some(sql),
    }
}

/// SQL's word for an operator of two operands, and how closely it binds.
fn binary(operator: Operator) -> Option<(&'static str, u8)> {
    Some(match operator {
        Operator::Or => ("OR", 1),
        Operator::And => ("AND", 2),
        Operator::Eq => ("=", 3),
        Operator::Ne => ("<>", 3),
        Operator::Gt => (">", 4),
        Operator::Ge => (">=", 4),
        Operator::Lt => ("<", 4),
        Operator::Le => ("<=", 4),
        Operator::Add => ("+", 5),
        Operator::Sub => ("-", 5),
        Operator::Mul => ("*", 6),
        Operator::Div => ("/", 6),
        Operator::Rem => ("%", 6),
        Operator::Not | Operator::Pow | Operator::Fact | Operator::Ident | Operator::Neg | Operator::Like => {
            return None;
        }
    })
}

fn name(name: &[u8]) -> String {
    String::from_utf8_lossy(name).into_owned()
}

#[cfg(test)]
mod tests {
    use crate::bench::questions::questions;

    use super::*;

    #[test]
    fn questions_are_written_as_sql() {
        let sql = questions().map(|asked| {
            let texts = texts::read(&asked.case.catalog, &asked.case.statement).expect("it is read");
            question(&texts.statement).expect("it is written")
        });
        assert_eq!(sql[0], "SELECT p1 FROM heap WHERE p2 >= 55 ORDER BY id");
        assert!(sql[1].starts_with(
            "SELECT *, p1 - p16 AS spread FROM heap WHERE p1 >= 55 AND p2 < 70 OR p3 >= 55 AND p4 < 70 OR "
        ));
        assert!(sql[1].ends_with(" OR p15 >= 55 AND p16 < 70 ORDER BY p1 DESC, id"));
        assert_eq!(
            sql[2],
            "SELECT h.id, count(n.id), max(n.p2) AS warmest FROM heap h LEFT JOIN heap n ON n.p1 > h.p1 \
             GROUP BY h.id HAVING max(n.p2) >= 55 ORDER BY count(n.id) DESC, h.id"
        );
    }
}
