//! The planner's plan as a canonical tree.

use texts::{Literal, Tree};

use crate::sql::planner::{Aggregate, Direction, Node, Plan};
use crate::sql::types::{Column, DataType, Expression, Label, Table, Value};

pub fn plan(plan: &Plan) -> Tree {
    match plan {
        Plan::Select(root) => Tree::list("select", [node(root)]),
        Plan::CreateTable { schema } => create(schema),
        Plan::DropTable { name, if_exists } => {
            Tree::list("drop", [name_of(name), Tree::word(yes_or_no(*if_exists))])
        }
        Plan::Delete { table, primary_key, source } => {
            Tree::list("delete", [name_of(table), Tree::word(primary_key), node(source)])
        }
        Plan::Insert { table, column_map, source } => {
            let mut parts = vec![name_of(&table.name), node(source)];
            if let Some(map) = column_map {
                let mut pairs: Vec<_> = map.iter().map(|(cindex, vindex)| (vindex, cindex)).collect();
                pairs.sort();
                let pair = |(vindex, cindex)| Tree::list("map", [Tree::word(cindex), Tree::word(vindex)]);
                parts.push(Tree::list("columns", pairs.into_iter().map(pair).collect::<Vec<_>>()));
            }
            Tree::list("insert", parts)
        }
        Plan::Update { table, primary_key, source, expressions } => {
            let mut parts = vec![name_of(&table.name), Tree::word(primary_key), node(source)];
            parts.extend(
                expressions
                    .iter()
                    .map(|(position, expr)| Tree::list("set", [Tree::word(position), expression(expr)])),
            );
            Tree::list("update", parts)
        }
    }
}

fn create(schema: &Table) -> Tree {
    let mut parts = vec![name_of(&schema.name), Tree::word(schema.primary_key)];
    parts.extend(schema.columns.iter().map(column));
    Tree::list("create", parts)
}

fn column(column: &Column) -> Tree {
    let datatype = match column.datatype {
        DataType::Boolean => "bool",
        DataType::Integer => "int",
        DataType::Float => "float",
        DataType::String => "text",
    };
    let mut parts = vec![
        name_of(&column.name),
        Tree::word(datatype),
        Tree::word(if column.nullable { "null" } else { "notnull" }),
        Tree::word(if column.unique { "unique" } else { "-" }),
        Tree::word(if column.index { "index" } else { "-" }),
    ];
    parts.extend(column.references.as_ref().map(|name| Tree::list("reference", [name_of(name)])));
    parts.extend(column.default.as_ref().map(|value| Tree::list("default", [constant(value)])));
    Tree::list("column", parts)
}

fn node(root: &Node) -> Tree {
    match root {
        Node::Scan { table, filter, alias } => {
            let mut parts = vec![name_of(&table.name)];
            parts.extend(Tree::alias(alias.as_deref()));
            parts.extend(filter.as_ref().map(expression));
            Tree::list("scan", parts)
        }
        Node::Values { rows } => Tree::list(
            "values",
            rows.iter().map(|row| Tree::list("row", expressions(row))).collect::<Vec<_>>(),
        ),
        Node::NestedLoopJoin { left, right, predicate, outer } => {
            let kind = Tree::word(if *outer { "outer" } else { "inner" });
            let mut parts = vec![node(left), node(right), kind];
            parts.extend(predicate.as_ref().map(expression));
            Tree::list("join", parts)
        }
        Node::Filter { source, predicate } => Tree::list("filter", [node(source), expression(predicate)]),
        Node::Aggregate { source, group_by, aggregates } => {
            let mut parts = vec![node(source)];
            parts.extend(group_by.iter().map(|expr| Tree::list("group", [expression(expr)])));
            parts.extend(aggregates.iter().map(aggregate));
            Tree::list("aggregate", parts)
        }
        Node::Projection { source, expressions, aliases } => {
            let mut parts = vec![node(source)];
            assert_eq!(expressions.len(), aliases.len(), "an alias or none for each expression");
            parts.extend(expressions.iter().zip(aliases).map(|(expr, alias)| item(expr, alias)));
            Tree::list("project", parts)
        }
        Node::Order { source, key } => {
            let mut parts = vec![node(source)];
            parts.extend(key.iter().map(|(expr, direction)| match direction {
                Direction::Ascending => Tree::list("asc", [expression(expr)]),
                Direction::Descending => Tree::list("desc", [expression(expr)]),
            }));
            Tree::list("order", parts)
        }
        Node::Offset { source, offset } => Tree::list("offset", [node(source), Tree::word(offset)]),
        Node::Limit { source, limit } => Tree::list("limit", [node(source), Tree::word(limit)]),
        Node::Remap { source, targets } => {
            let mut parts = vec![node(source)];
            parts.extend(targets.iter().map(|target| match target {
                Some(target) => Tree::word(target),
                None => Tree::word("-"),
            }));
            Tree::list("remap", parts)
        }
        Node::HashJoin { .. } | Node::IndexLookup { .. } | Node::KeyLookup { .. } | Node::Nothing { .. } => {
            unreachable!("a node that only the optimizer makes")
        }
    }
}

fn aggregate(aggregate: &Aggregate) -> Tree {
    let name = match aggregate {
        Aggregate::Average(_) => "avg",
        Aggregate::Count(_) => "count",
        Aggregate::Max(_) => "max",
        Aggregate::Min(_) => "min",
        Aggregate::Sum(_) => "sum",
    };
    Tree::list(name, [expression(aggregate.expr())])
}

fn item(expr: &Expression, alias: &Label) -> Tree {
    let mut parts = vec![expression(expr)];
    parts.extend(match alias {
        Label::None => None,
        Label::Unqualified(alias) => Tree::alias(Some(alias.as_str())),
        Label::Qualified(..) => unreachable!("an item's alias is one name"),
    });
    Tree::list("item", parts)
}

fn expressions(exprs: &[Expression]) -> Vec<Tree> {
    exprs.iter().map(expression).collect()
}

fn expression(expr: &Expression) -> Tree {
    use Expression::*;
    let one = |head, operand: &Expression| Tree::list(head, [expression(operand)]);
    let two =
        |head, left: &Expression, right: &Expression| Tree::list(head, [expression(left), expression(right)]);
    match expr {
        Constant(value) => constant(value),
        Column(position) => Tree::list("col", [Tree::word(position)]),
        And(left, right) => two("and", left, right),
        Or(left, right) => two("or", left, right),
        Not(operand) => one("not", operand),
        Equal(left, right) => two("eq", left, right),
        GreaterThan(left, right) => two("gt", left, right),
        LessThan(left, right) => two("lt", left, right),
        Is(operand, value) => Tree::list("is", [expression(operand), constant(value)]),
        Add(left, right) => two("add", left, right),
        Divide(left, right) => two("div", left, right),
        Exponentiate(left, right) => two("pow", left, right),
        Factorial(operand) => one("fact", operand),
        Identity(operand) => one("ident", operand),
        Multiply(left, right) => two("mul", left, right),
        Negate(operand) => one("neg", operand),
        Remainder(left, right) => two("rem", left, right),
        SquareRoot(operand) => one("sqrt", operand),
        Subtract(left, right) => two("sub", left, right),
        Like(left, right) => two("like", left, right),
    }
}

fn constant(value: &Value) -> Tree {
    Tree::literal(&literal(value))
}

/// The planner's value as a literal.
pub fn literal(value: &Value) -> Literal {
    match value {
        Value::Null => Literal::Null,
        Value::Boolean(value) => Literal::Bool(*value),
        Value::Integer(value) => Literal::Int(*value),
        Value::Float(value) => Literal::Float(value.to_bits()),
        Value::String(text) => Literal::Text(text.clone().into_bytes()),
    }
}

fn name_of(name: &str) -> Tree {
    Tree::bytes(name)
}

fn yes_or_no(value: bool) -> &'static str {
    if value { "yes" } else { "no" }
}
