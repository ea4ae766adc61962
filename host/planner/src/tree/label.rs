//! The names of the columns that a node gives.

use core::fmt::{self, Formatter};

use super::Printer;
use crate::cell::Cell;
use crate::lossy::Shown;
use crate::node::Node;
use crate::plan::Plan;
use crate::values::{Column, NodeNumber};

/// The name of a column, where it has one.
enum Label<'a> {
    /// It has none.
    None,
    /// A name that the statement gives it.
    Unqualified(&'a [u8]),
    /// A table, by the name that it goes by, and its column.
    Qualified(&'a [u8], &'a [u8]),
}

impl Printer<'_> {
    /// A column of a node by its name, or else by its position.
    pub fn column(&self, f: &mut Formatter, node: NodeNumber, column: Column) -> fmt::Result {
        match label(&self.plan, node, column) {
            Label::None => write!(f, "#{column}"),
            Label::Unqualified(name) => write!(f, "{}", Shown(name)),
            Label::Qualified(table, name) => write!(f, "{}.{}", Shown(table), Shown(name)),
        }
    }
}

/// The name of a node's column, traced to where it comes from.
fn label<'a>(plan: &Plan<'a>, mut node: NodeNumber, mut column: Column) -> Label<'a> {
    loop {
        let from = match plan.node(node) {
            Node::Scan { table, alias, .. } => {
                return match plan.texts.table(table).and_then(|mut names| names.nth(column.index())) {
                    Some(name) => Label::Qualified(alias.unwrap_or(table), name),
                    None => Label::None,
                };
            }
            Node::Values { .. } => None,
            Node::Join { left, right, .. } => Some(match column.get().checked_sub(width(plan, left)) {
                Some(of_right) => (right, Column(of_right)),
                None => (left, column),
            }),
            Node::Aggregate { source, groups, .. } => groups
                .get(column.index())
                .and_then(|cell| as_column(plan.cell(cell)))
                .map(|column| (source, column)),
            Node::Project { source, items } => match items.get(column.index()) {
                Some(item) => match item.alias {
                    Some(alias) => return Label::Unqualified(alias),
                    None => as_column(plan.cell(item.cell)).map(|column| (source, column)),
                },
                None => None,
            },
            Node::Remap { source, targets } => targets
                .iter()
                .position(|target| target == Some(column))
                .map(|from| (source, Column(from as u32))),
            Node::Filter { source, .. }
            | Node::Order { source, .. }
            | Node::Offset { source, .. }
            | Node::Limit { source, .. } => Some((source, column)),
        };
        match from {
            Some(from) => (node, column) = from,
            None => return Label::None,
        }
    }
}

fn as_column(cell: Cell) -> Option<Column> {
    match cell {
        Cell::Column(column) => Some(column),
        _ => None,
    }
}

/// How many columns a node gives.
fn width(plan: &Plan, node: NodeNumber) -> u32 {
    match plan.node(node) {
        Node::Scan { table, .. } => plan.texts.table(table).map_or(0, |names| names.count() as u32),
        Node::Values { rows } => rows.iter().next().map_or(0, |row| row.len() as u32),
        Node::Join { left, right, .. } => width(plan, left).saturating_add(width(plan, right)),
        Node::Aggregate { groups, aggregates, .. } => (groups.len() + aggregates.len()) as u32,
        Node::Project { items, .. } => items.len() as u32,
        Node::Remap { targets, .. } => targets.iter().flatten().count() as u32,
        Node::Filter { source, .. }
        | Node::Order { source, .. }
        | Node::Offset { source, .. }
        | Node::Limit { source, .. } => width(plan, source),
    }
}
