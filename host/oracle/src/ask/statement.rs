//! The texts' catalog and statement as the planner's own types. None where a name or text is not UTF-8.

use crate::sql::parser::ast;
use crate::sql::types::{Column, DataType, Table, Value};

pub fn tables(tables: &[texts::Table]) -> Option<Vec<Table>> {
    tables.iter().map(table).collect()
}

pub fn statement(statement: &texts::Statement) -> Option<ast::Statement> {
    use texts::Statement::*;
    Some(match statement {
        Select(select) => self::select(select)?,
        Delete { table, filter, .. } => {
            ast::Statement::Delete { table: string(table)?, r#where: optional(filter)? }
        }
        Insert { table, names, rows, .. } => ast::Statement::Insert {
            table: string(table)?,
            columns: match names {
                Some(names) => Some(names.iter().map(|(_, name)| string(name)).collect::<Option<_>>()?),
                None => None,
            },
            values: rows.iter().map(|row| expressions(row)).collect::<Option<_>>()?,
        },
        Update { table, sets, filter, .. } => ast::Statement::Update {
            table: string(table)?,
            set: sets
                .iter()
                .map(|set| Some((string(&set.name)?, optional(&set.expr)?)))
                .collect::<Option<_>>()?,
            r#where: optional(filter)?,
        },
        Create { name, columns, .. } => ast::Statement::CreateTable {
            name: string(name)?,
            columns: columns.iter().map(new_column).collect::<Option<_>>()?,
        },
        Drop { name, if_exists } => ast::Statement::DropTable { name: string(name)?, if_exists: *if_exists },
        Other { .. } => ast::Statement::Commit,
    })
}

/// The columns' other fields are unset.
fn table(table: &texts::Table) -> Option<Table> {
    let column = |column: &texts::Column| {
        Some(Column {
            name: string(&column.name)?,
            datatype: datatype(column.datatype),
            nullable: column.nullable,
            default: match &column.default {
                Some(literal) => Some(value(literal)?),
                None => None,
            },
            unique: false,
            index: false,
            references: None,
        })
    };
    Some(Table {
        name: string(&table.name)?,
        primary_key: table.key,
        columns: table.columns.iter().map(column).collect::<Option<_>>()?,
    })
}

fn select(select: &texts::Select) -> Option<ast::Statement> {
    Some(ast::Statement::Select {
        select: select
            .items
            .iter()
            .map(|item| Some((expression(&item.expr)?, optional_string(&item.alias)?)))
            .collect::<Option<_>>()?,
        from: select.from.iter().map(from).collect::<Option<_>>()?,
        r#where: optional(&select.filter)?,
        group_by: expressions(&select.groups)?,
        having: clause(&select.having)?,
        order_by: select
            .order
            .iter()
            .map(|key| Some((expression(&key.expr)?, direction(key.direction))))
            .collect::<Option<_>>()?,
        offset: clause(&select.offset)?,
        limit: clause(&select.limit)?,
    })
}

fn from(from: &texts::From) -> Option<ast::From> {
    Some(match from {
        texts::From::Table { name, alias, .. } => {
            ast::From::Table { name: string(name)?, alias: optional_string(alias)? }
        }
        texts::From::Join { kind, left, right, predicate, .. } => ast::From::Join {
            left: Box::new(self::from(left)?),
            right: Box::new(self::from(right)?),
            r#type: match kind {
                texts::JoinKind::Cross => ast::JoinType::Cross,
                texts::JoinKind::Inner => ast::JoinType::Inner,
                texts::JoinKind::Left => ast::JoinType::Left,
                texts::JoinKind::Right => ast::JoinType::Right,
            },
            predicate: optional(predicate)?,
        },
    })
}

fn new_column(column: &texts::NewColumn) -> Option<ast::Column> {
    Some(ast::Column {
        name: string(&column.name)?,
        datatype: datatype(column.datatype),
        primary_key: column.key,
        nullable: column.nullable,
        default: optional(&column.default)?,
        unique: column.unique,
        index: column.index,
        references: optional_string(&column.reference)?,
    })
}

pub fn expression(expr: &texts::Expr) -> Option<ast::Expression> {
    use texts::ExprKind::*;
    Some(match &expr.kind {
        Star => ast::Expression::All,
        Column { table, name } => ast::Expression::Column(optional_string(table)?, string(name)?),
        Literal(literal) => ast::Expression::Literal(self::literal(literal)?),
        Function { name, arguments } => ast::Expression::Function(string(name)?, expressions(arguments)?),
        Operator(operator, operands) => ast::Expression::Operator(self::operator(*operator, operands)?),
        Is(operand, literal) => ast::Expression::Operator(ast::Operator::Is(
            Box::new(expression(operand)?),
            self::literal(literal)?,
        )),
    })
}

fn operator(operator: texts::Operator, operands: &[texts::Expr]) -> Option<ast::Operator> {
    use texts::Operator::*;
    let operand = |i: usize| Some(Box::new(expression(&operands[i])?));
    let one = |build: fn(Box<ast::Expression>) -> ast::Operator| Some(build(operand(0)?));
    let two = |build: fn(Box<ast::Expression>, Box<ast::Expression>) -> ast::Operator| {
        Some(build(operand(0)?, operand(1)?))
    };
    match operator {
        And => two(ast::Operator::And),
        Not => one(ast::Operator::Not),
        Or => two(ast::Operator::Or),
        Eq => two(ast::Operator::Equal),
        Gt => two(ast::Operator::GreaterThan),
        Ge => two(ast::Operator::GreaterThanOrEqual),
        Lt => two(ast::Operator::LessThan),
        Le => two(ast::Operator::LessThanOrEqual),
        Ne => two(ast::Operator::NotEqual),
        Add => two(ast::Operator::Add),
        Div => two(ast::Operator::Divide),
        Pow => two(ast::Operator::Exponentiate),
        Fact => one(ast::Operator::Factorial),
        Ident => one(ast::Operator::Identity),
        Mul => two(ast::Operator::Multiply),
        Neg => one(ast::Operator::Negate),
        Rem => two(ast::Operator::Remainder),
        Sub => two(ast::Operator::Subtract),
        Like => two(ast::Operator::Like),
    }
}

fn expressions(exprs: &[texts::Expr]) -> Option<Vec<ast::Expression>> {
    exprs.iter().map(expression).collect()
}

/// None where the expression is not UTF-8, Some(None) where there is none.
fn optional(expr: &Option<texts::Expr>) -> Option<Option<ast::Expression>> {
    match expr {
        Some(expr) => expression(expr).map(Some),
        None => Some(None),
    }
}

fn clause(clause: &Option<texts::Clause>) -> Option<Option<ast::Expression>> {
    match clause {
        Some(clause) => expression(&clause.expr).map(Some),
        None => Some(None),
    }
}

fn optional_string(bytes: &Option<texts::Name>) -> Option<Option<String>> {
    match bytes {
        Some(bytes) => string(bytes).map(Some),
        None => Some(None),
    }
}

fn string(bytes: &[u8]) -> Option<String> {
    String::from_utf8(bytes.to_vec()).ok()
}

fn literal(literal: &texts::Literal) -> Option<ast::Literal> {
    Some(match literal {
        texts::Literal::Null => ast::Literal::Null,
        texts::Literal::Bool(value) => ast::Literal::Boolean(*value),
        texts::Literal::Int(value) => ast::Literal::Integer(*value),
        texts::Literal::Float(bits) => ast::Literal::Float(f64::from_bits(*bits)),
        texts::Literal::Text(bytes) => ast::Literal::String(string(bytes)?),
    })
}

fn value(literal: &texts::Literal) -> Option<Value> {
    Some(match literal {
        texts::Literal::Null => Value::Null,
        texts::Literal::Bool(value) => Value::Boolean(*value),
        texts::Literal::Int(value) => Value::Integer(*value),
        texts::Literal::Float(bits) => Value::Float(f64::from_bits(*bits)),
        texts::Literal::Text(bytes) => Value::String(string(bytes)?),
    })
}

fn datatype(datatype: texts::DataType) -> DataType {
    match datatype {
        texts::DataType::Bool => DataType::Boolean,
        texts::DataType::Int => DataType::Integer,
        texts::DataType::Float => DataType::Float,
        texts::DataType::Text => DataType::String,
    }
}

fn direction(direction: texts::Direction) -> ast::Direction {
    match direction {
        texts::Direction::Ascending => ast::Direction::Ascending,
        texts::Direction::Descending => ast::Direction::Descending,
    }
}
