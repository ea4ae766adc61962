//! toydb's tables and statement as the line texts. The error names a field with a tab or a line end, which the texts cannot
//! hold; a name that is empty or too long is written, and the planner refuses it.

use crate::sql::parser::ast::{Column, Direction, Expression, From, JoinType, Literal, Operator, Statement};
use crate::sql::types::{self, DataType, Table, Value};

type Written = Result<(), String>;

pub fn catalog(tables: &[Table]) -> Result<Vec<u8>, String> {
    let mut text = Text::default();
    for table in tables {
        text.record(&["table", &table.name, &table.primary_key.to_string()])?;
        table.columns.iter().try_for_each(|column| text.table_column(column))?;
    }
    Ok(text.0.into_bytes())
}

pub fn statement(statement: &Statement) -> Result<Vec<u8>, String> {
    let mut text = Text::default();
    text.statement(statement)?;
    text.record(&["end"])?;
    Ok(text.0.into_bytes())
}

#[derive(Default)]
struct Text(String);

impl Text {
    /// A line of fields.
    fn record(&mut self, fields: &[&str]) -> Written {
        if let Some(field) = fields.iter().find(|field| field.contains(['\t', '\n'])) {
            return Err(format!("{field:?} has a tab or a line end"));
        }
        self.0.push_str(&fields.join("\t"));
        self.0.push('\n');
        Ok(())
    }

    /// A record with one field more where there is an alias.
    fn with_alias(&mut self, fields: &[&str], alias: Option<&String>) -> Written {
        let alias: Vec<&str> = alias.iter().map(|alias| alias.as_str()).collect();
        self.record(&[fields, &alias].concat())
    }

    fn table_column(&mut self, column: &types::Column) -> Written {
        let nullable = if column.nullable { "null" } else { "notnull" };
        self.record(&["column", &column.name, datatype(&column.datatype), nullable])?;
        match &column.default {
            None => self.record(&["nodefault"]),
            Some(Value::Null) => self.literal(&Literal::Null),
            Some(Value::Boolean(value)) => self.literal(&Literal::Boolean(*value)),
            Some(Value::Integer(value)) => self.literal(&Literal::Integer(*value)),
            Some(Value::Float(value)) => self.literal(&Literal::Float(*value)),
            Some(Value::String(value)) => self.literal(&Literal::String(value.clone())),
        }
    }

    fn statement(&mut self, statement: &Statement) -> Written {
        match statement {
            Statement::Select { select, from, r#where, group_by, having, order_by, offset, limit } => {
                self.record(&["select"])?;
                for (expr, alias) in select {
                    self.with_alias(&["item"], alias.as_ref())?;
                    self.expression(expr)?;
                }
                from.iter().try_for_each(|from| self.from(from))?;
                self.clause("where", r#where.as_ref())?;
                group_by.iter().try_for_each(|expr| self.clause("group", Some(expr)))?;
                self.clause("having", having.as_ref())?;
                for (expr, direction) in order_by {
                    let direction = match direction {
                        Direction::Ascending => "asc",
                        Direction::Descending => "desc",
                    };
                    self.record(&["order", direction])?;
                    self.expression(expr)?;
                }
                self.clause("offset", offset.as_ref())?;
                self.clause("limit", limit.as_ref())
            }
            Statement::Delete { table, r#where } => {
                self.record(&["delete", table])?;
                self.clause("where", r#where.as_ref())
            }
            Statement::Insert { table, columns, values } => {
                self.record(&["insert", table])?;
                if let Some(columns) = columns {
                    self.record(&["columns"])?;
                    columns.iter().try_for_each(|name| self.record(&["name", name]))?;
                }
                for row in values {
                    self.record(&["row", &row.len().to_string()])?;
                    row.iter().try_for_each(|expr| self.expression(expr))?;
                }
                Ok(())
            }
            Statement::Update { table, set, r#where } => {
                self.record(&["update", table])?;
                for (name, expr) in set {
                    match expr {
                        Some(expr) => {
                            self.record(&["set", name])?;
                            self.expression(expr)?;
                        }
                        None => self.record(&["set", name, "default"])?,
                    }
                }
                self.clause("where", r#where.as_ref())
            }
            Statement::CreateTable { name, columns } => {
                self.record(&["create", name])?;
                columns.iter().try_for_each(|column| self.created_column(column))
            }
            Statement::DropTable { name, if_exists } => {
                self.record(&["drop", name, if *if_exists { "yes" } else { "no" }])
            }
            Statement::Begin { .. } | Statement::Commit | Statement::Rollback | Statement::Explain(_) => {
                self.record(&["other"])
            }
        }
    }

    fn created_column(&mut self, column: &Column) -> Written {
        let given = |is_given: bool, word: &'static str| if is_given { word } else { "-" };
        let nullable = match column.nullable {
            Some(true) => "null",
            Some(false) => "notnull",
            None => "-",
        };
        let fields = [
            "column",
            &column.name,
            datatype(&column.datatype),
            given(column.primary_key, "pk"),
            nullable,
            given(column.unique, "unique"),
            given(column.index, "index"),
            given(column.default.is_some(), "default"),
        ];
        self.with_alias(&fields, column.references.as_ref())?;
        column.default.iter().try_for_each(|expr| self.expression(expr))
    }

    fn from(&mut self, from: &From) -> Written {
        match from {
            From::Table { name, alias } => self.with_alias(&["from", name], alias.as_ref()),
            From::Join { left, right, r#type, predicate } => {
                let kind = match r#type {
                    JoinType::Cross => "cross",
                    JoinType::Inner => "inner",
                    JoinType::Left => "left",
                    JoinType::Right => "right",
                };
                self.record(&["join", kind, if predicate.is_some() { "on" } else { "bare" }])?;
                self.from(left)?;
                self.from(right)?;
                predicate.iter().try_for_each(|expr| self.expression(expr))
            }
        }
    }

    /// A clause's record and its expression, where there is one.
    fn clause(&mut self, word: &str, expr: Option<&Expression>) -> Written {
        let Some(expr) = expr else { return Ok(()) };
        self.record(&[word])?;
        self.expression(expr)
    }

    fn expression(&mut self, expr: &Expression) -> Written {
        match expr {
            Expression::All => self.record(&["star"]),
            Expression::Column(None, name) => self.record(&["col", name]),
            Expression::Column(Some(table), name) => self.record(&["col", table, name]),
            Expression::Literal(literal) => self.literal(literal),
            Expression::Function(name, arguments) => {
                self.record(&["fn", name, &arguments.len().to_string()])?;
                arguments.iter().try_for_each(|argument| self.expression(argument))
            }
            Expression::Operator(operator) => self.operator(operator),
        }
    }

    fn operator(&mut self, operator: &Operator) -> Written {
        use Operator::*;
        let (word, operands): (_, Vec<&Expression>) = match operator {
            And(left, right) => ("and", vec![left, right]),
            Not(operand) => ("not", vec![operand]),
            Or(left, right) => ("or", vec![left, right]),
            Equal(left, right) => ("eq", vec![left, right]),
            GreaterThan(left, right) => ("gt", vec![left, right]),
            GreaterThanOrEqual(left, right) => ("ge", vec![left, right]),
            Is(operand, _) => ("is", vec![operand]),
            LessThan(left, right) => ("lt", vec![left, right]),
            LessThanOrEqual(left, right) => ("le", vec![left, right]),
            NotEqual(left, right) => ("ne", vec![left, right]),
            Add(left, right) => ("add", vec![left, right]),
            Divide(left, right) => ("div", vec![left, right]),
            Exponentiate(left, right) => ("pow", vec![left, right]),
            Factorial(operand) => ("fact", vec![operand]),
            Identity(operand) => ("ident", vec![operand]),
            Multiply(left, right) => ("mul", vec![left, right]),
            Negate(operand) => ("neg", vec![operand]),
            Remainder(left, right) => ("rem", vec![left, right]),
            Subtract(left, right) => ("sub", vec![left, right]),
            Like(left, right) => ("like", vec![left, right]),
        };
        self.record(&["op", word])?;
        operands.into_iter().try_for_each(|operand| self.expression(operand))?;
        match operator {
            Is(_, literal) => self.literal(literal),
            _ => Ok(()),
        }
    }

    fn literal(&mut self, literal: &Literal) -> Written {
        match literal {
            Literal::Null => self.record(&["null"]),
            Literal::Boolean(value) => self.record(&["bool", if *value { "t" } else { "f" }]),
            Literal::Integer(value) => self.record(&["int", &value.to_string()]),
            Literal::Float(value) => self.record(&["float", &format!("{:016x}", value.to_bits())]),
            Literal::String(value) => self.record(&["text", value]),
        }
    }
}

fn datatype(datatype: &DataType) -> &'static str {
    match datatype {
        DataType::Boolean => "bool",
        DataType::Integer => "int",
        DataType::Float => "float",
        DataType::String => "text",
    }
}

#[cfg(test)]
mod tests {
    use super::*;

    #[test]
    fn statements_that_are_not_planned_are_other() {
        let explained = Statement::Explain(Box::new(Statement::Commit));
        let begin = Statement::Begin { read_only: true, as_of: Some(1) };
        for other in [begin, Statement::Commit, Statement::Rollback, explained] {
            assert_eq!(statement(&other), Ok(b"other\nend\n".to_vec()));
        }
    }

    #[test]
    fn fields_that_would_be_two_are_refused() {
        for name in ["a\tb", "a\nb", "\n"] {
            assert!(statement(&Statement::DropTable { name: name.to_string(), if_exists: true }).is_err());
        }
        let name = "a b\u{0}é".to_string();
        assert_eq!(
            statement(&Statement::DropTable { name, if_exists: true }),
            Ok("drop\ta b\0é\tyes\nend\n".into())
        );
    }
}
