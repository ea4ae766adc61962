//! The plan as a tree for people, in the shape and with the labels of toydb's EXPLAIN.

mod expression;
mod label;

use core::cell::Cell;
use core::fmt::{self, Display, Formatter};

use crate::list::List;
use crate::lossy::Shown;
use crate::node::Node;
use crate::plan::Plan;
use crate::statement::Statement;
use crate::values::{CellNumber, Column, NodeNumber};

/// A plan shown as a tree, the last node first, each node's sources below it.
///
/// Shared cells are shown wherever they are used, so an expression of nested comparisons can be very long: what is beyond
/// 16,384 cells in all is shown as `..`.
#[derive(Clone, Copy, Debug)]
pub struct Tree<'a>(pub(crate) Plan<'a>);

/// The most cells that are shown.
const MOST_SHOWN: u32 = 16_384;

impl Display for Tree<'_> {
    fn fmt(&self, f: &mut Formatter<'_>) -> fmt::Result {
        Printer { plan: self.0, left: Cell::new(MOST_SHOWN) }.statement(f)
    }
}

/// Prints a plan.
struct Printer<'a> {
    plan: Plan<'a>,
    /// How many more cells are shown.
    left: Cell<u32>,
}

/// Where a node stands in the tree: under a node, as its last source or not.
struct Branch<'b> {
    above: Option<&'b Branch<'b>>,
    last: bool,
}

impl Branch<'_> {
    /// The lines that pass by on the left of what stands below.
    fn passing(&self, f: &mut Formatter) -> fmt::Result {
        if let Some(above) = self.above {
            above.passing(f)?;
        }
        f.write_str(if self.last { "   " } else { "│  " })
    }

    /// Starts the node's line.
    fn start(&self, f: &mut Formatter) -> fmt::Result {
        f.write_str("\n")?;
        if let Some(above) = self.above {
            above.passing(f)?;
        }
        f.write_str(if self.last { "└─ " } else { "├─ " })
    }
}

impl<'a> Printer<'a> {
    fn statement(&self, f: &mut Formatter) -> fmt::Result {
        let source = match self.plan.statement() {
            Statement::Select { source } => return self.node(f, source, None),
            Statement::Create { table, .. } => return write!(f, "CreateTable: {}", Shown(table)),
            Statement::Drop { table, .. } => return write!(f, "DropTable: {}", Shown(table)),
            Statement::Delete { table, source, .. } => {
                write!(f, "Delete: {}", Shown(table))?;
                source
            }
            Statement::Insert { table, source, .. } => {
                write!(f, "Insert: {}", Shown(table))?;
                source
            }
            Statement::Update { table, sets, source, .. } => {
                write!(f, "Update: {} (", Shown(table))?;
                joined(f, sets.iter(), |f, set| {
                    let mut columns = self.plan.texts.table(table).into_iter().flatten();
                    write!(f, "{}=", Shown(columns.nth(set.column.index()).unwrap_or_default()))?;
                    self.expression(f, set.cell, source)
                })?;
                f.write_str(")")?;
                source
            }
        };
        self.last_source(f, source, None)
    }

    /// A node and what stands below it; `branch` is none for the one at the top.
    fn node(&self, f: &mut Formatter, number: NodeNumber, branch: Option<&Branch>) -> fmt::Result {
        match self.plan.node(number) {
            Node::Scan { table, alias, filter } => {
                write!(f, "Scan: {}", Shown(table))?;
                if let Some(alias) = alias {
                    write!(f, " as {}", Shown(alias))?;
                }
                filter.into_iter().try_for_each(|cell| {
                    f.write_str(" (")?;
                    self.expression(f, cell, number)?;
                    f.write_str(")")
                })
            }
            Node::Values { rows } => {
                f.write_str("Values: ")?;
                match (rows.iter().next(), rows.iter().count()) {
                    (Some(row), 1) if row.is_empty() => f.write_str("blank row"),
                    (Some(row), 1) => self.expressions(f, row, number),
                    (_, count) => write!(f, "{count} rows"),
                }
            }
            Node::Join { left, right, outer, predicate } => {
                write!(f, "NestedLoopJoin: {}", if outer { "outer" } else { "inner" })?;
                predicate.into_iter().try_for_each(|cell| {
                    f.write_str(" on ")?;
                    self.expression(f, cell, number)
                })?;
                let first = Branch { above: branch, last: false };
                first.start(f)?;
                self.node(f, left, Some(&first))?;
                self.last_source(f, right, branch)
            }
            Node::Remap { source, targets } => {
                f.write_str("Remap: ")?;
                self.remap(f, source, targets)?;
                self.last_source(f, source, branch)
            }
            node => {
                let source = self.over_source(f, &node)?;
                source.map_or(Ok(()), |source| self.last_source(f, source, branch))
            }
        }
    }

    fn last_source(&self, f: &mut Formatter, source: NodeNumber, above: Option<&Branch>) -> fmt::Result {
        let branch = Branch { above, last: true };
        branch.start(f)?;
        self.node(f, source, Some(&branch))
    }

    /// The line of a node whose cells are read over its one source, and that source.
    fn over_source(&self, f: &mut Formatter, node: &Node<'a>) -> Result<Option<NodeNumber>, fmt::Error> {
        match *node {
            Node::Filter { source, predicate } => {
                f.write_str("Filter: ")?;
                self.expression(f, predicate, source)?;
            }
            Node::Aggregate { source, groups, aggregates } => {
                f.write_str("Aggregate: ")?;
                self.expressions(f, groups, source)?;
                if !groups.is_empty() && !aggregates.is_empty() {
                    f.write_str(", ")?;
                }
                joined(f, aggregates.iter(), |f, aggregate| {
                    write!(f, "{}(", aggregate.function.word())?;
                    self.expression(f, aggregate.argument, source)?;
                    f.write_str(")")
                })?;
            }
            Node::Project { source, items } => {
                f.write_str("Projection: ")?;
                joined(f, items.iter(), |f, item| {
                    self.expression(f, item.cell, source)?;
                    item.alias.map_or(Ok(()), |alias| write!(f, " as {}", Shown(alias)))
                })?;
            }
            Node::Order { source, keys } => {
                f.write_str("Order: ")?;
                joined(f, keys.iter(), |f, key| {
                    self.expression(f, key.cell, source)?;
                    f.write_str(if key.descending { " desc" } else { " asc" })
                })?;
            }
            Node::Offset { rows, .. } => write!(f, "Offset: {rows}")?,
            Node::Limit { rows, .. } => write!(f, "Limit: {rows}")?,
            Node::Scan { .. } | Node::Values { .. } | Node::Join { .. } | Node::Remap { .. } => {}
        }
        Ok(node.sources().next())
    }

    /// The source's columns in the order of their targets, then those that are dropped.
    fn remap(&self, f: &mut Formatter, source: NodeNumber, targets: List<'a, Option<Column>>) -> fmt::Result {
        let kept = (0..targets.iter().flatten().count())
            .filter_map(|target| targets.iter().position(|to| to.is_some_and(|to| to.index() == target)));
        joined(f, kept, |f, from| self.column(f, source, Column(from as u32)))?;
        if targets.iter().all(|target| target.is_some()) {
            return Ok(());
        }
        f.write_str(" (dropped: ")?;
        let dropped = targets.iter().enumerate().filter(|(_, target)| target.is_none());
        joined(f, dropped, |f, (from, _)| self.column(f, source, Column(from as u32)))?;
        f.write_str(")")
    }

    /// Expressions over the columns of a node.
    fn expressions(&self, f: &mut Formatter, cells: List<'a, CellNumber>, over: NodeNumber) -> fmt::Result {
        joined(f, cells.iter(), |f, cell| self.expression(f, cell, over))
    }
}

/// Parts with commas between them.
fn joined<T>(
    f: &mut Formatter,
    parts: impl Iterator<Item = T>,
    mut show: impl FnMut(&mut Formatter, T) -> fmt::Result,
) -> fmt::Result {
    parts.enumerate().try_for_each(|(place, part)| {
        if place > 0 {
            f.write_str(", ")?;
        }
        show(f, part)
    })
}
