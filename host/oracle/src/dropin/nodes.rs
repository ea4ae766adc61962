//! The nodes of a printed plan as toydb's.

use super::cells::Cells;
use super::lines::{Fields, number, unknown};
use crate::sql::planner::{Aggregate, Direction, Node};
use crate::sql::types::{Expression, Label, Table};

/// The nodes so far, over cells and the catalog's tables. A node goes to its only user.
pub struct Nodes<'a> {
    pub cells: Cells,
    pub tables: &'a [Table],
    /// Whether the statement is a SELECT, whose scans have aliases; those of others have filters.
    pub select: bool,
    nodes: Vec<Option<Node>>,
}

impl<'a> Nodes<'a> {
    pub fn new(cells: Cells, tables: &'a [Table], select: bool) -> Self {
        Nodes { cells, tables, select, nodes: Vec::new() }
    }

    /// Adds a node by the fields behind its number.
    pub fn add(&mut self, fields: Fields) -> Result<(), String> {
        let node = self.read(fields)?;
        self.nodes.push(Some(node));
        Ok(())
    }

    /// Takes the node of a number.
    pub fn take(&mut self, field: &str) -> Result<Node, String> {
        let node = self.nodes.get_mut(number::<usize>(field)?).and_then(Option::take);
        node.ok_or_else(|| format!("node {field} is not there, or is taken"))
    }

    /// Takes the last node, once all others are taken.
    pub fn take_last(&mut self) -> Result<Node, String> {
        let last = self.nodes.pop().flatten().ok_or("there is no last node")?;
        self.expect_none_left()?;
        Ok(last)
    }

    pub fn expect_none_left(&self) -> Result<(), String> {
        if self.nodes.iter().any(Option::is_some) { Err("a node has no user".to_string()) } else { Ok(()) }
    }

    /// The catalog's table of a name.
    pub fn table(&self, name: &str) -> Result<Table, String> {
        let table = self.tables.iter().find(|table| table.name == name);
        table.cloned().ok_or_else(|| format!("the catalog has no table {name:?}"))
    }

    fn source(&mut self, field: &str) -> Result<Box<Node>, String> {
        self.take(field).map(Box::new)
    }

    fn read(&mut self, fields: Fields) -> Result<Node, String> {
        Ok(match fields {
            ["scan", name, rest @ ..] => {
                let table = self.table(name)?;
                let (filter, alias) = match rest {
                    [] => (None, None),
                    ["as", alias] if self.select => (None, Some(alias.to_string())),
                    [cell] if !self.select => (Some(self.cells.get(cell)?), None),
                    _ => return unknown(fields),
                };
                Node::Scan { table, filter, alias }
            }
            ["values", rest @ ..] => Node::Values { rows: self.rows(rest)? },
            ["join", left, right, kind, predicate @ ..] => {
                let (left, right) = (self.source(left)?, self.source(right)?);
                let outer = match *kind {
                    "outer" => true,
                    "inner" => false,
                    _ => return unknown(fields),
                };
                let predicate = match predicate {
                    [] => None,
                    [cell] => Some(self.cells.get(cell)?),
                    _ => return unknown(fields),
                };
                Node::NestedLoopJoin { left, right, predicate, outer }
            }
            ["filter", source, cell] => {
                Node::Filter { source: self.source(source)?, predicate: self.cells.get(cell)? }
            }
            ["aggregate", source, rest @ ..] => self.aggregate(source, rest)?,
            ["project", source, rest @ ..] => self.project(source, rest)?,
            ["order", source, keys @ ..] => {
                let source = self.source(source)?;
                Node::Order { source, key: self.keys(keys)? }
            }
            ["offset", source, rows] => Node::Offset { source: self.source(source)?, offset: number(rows)? },
            ["limit", source, rows] => Node::Limit { source: self.source(source)?, limit: number(rows)? },
            ["remap", source, targets @ ..] => {
                let source = self.source(source)?;
                let target = |field: &&str| if *field == "-" { Ok(None) } else { number(field).map(Some) };
                Node::Remap { source, targets: targets.iter().map(target).collect::<Result<_, _>>()? }
            }
            fields => return unknown(fields),
        })
    }

    fn rows(&self, mut fields: Fields) -> Result<Vec<Vec<Expression>>, String> {
        let mut rows = Vec::new();
        while let ["row", width, rest @ ..] = fields {
            let (row, behind) = rest.split_at_checked(number(width)?).ok_or("a row is cut off")?;
            rows.push(row.iter().map(|cell| self.cells.get(cell)).collect::<Result<_, _>>()?);
            fields = behind;
        }
        if fields.is_empty() { Ok(rows) } else { unknown(fields) }
    }

    /// The groups' cells, then a name and a cell for each aggregate.
    fn aggregate(&mut self, source: &str, fields: Fields) -> Result<Node, String> {
        let is_cell = |field: &&str| field.starts_with(|c: char| c.is_ascii_digit());
        let groups = fields.iter().take_while(|field| is_cell(field)).count();
        let (groups, pairs) = fields.split_at(groups);
        let group_by = groups.iter().map(|cell| self.cells.get(cell)).collect::<Result<_, _>>()?;
        let mut aggregates = Vec::new();
        for pair in pairs.chunks(2) {
            let [name, cell] = pair else { return unknown(fields) };
            let build = match *name {
                "avg" => Aggregate::Average,
                "count" => Aggregate::Count,
                "max" => Aggregate::Max,
                "min" => Aggregate::Min,
                "sum" => Aggregate::Sum,
                _ => return unknown(fields),
            };
            aggregates.push(build(self.cells.get(cell)?));
        }
        Ok(Node::Aggregate { source: self.source(source)?, group_by, aggregates })
    }

    fn project(&mut self, source: &str, mut fields: Fields) -> Result<Node, String> {
        let (mut expressions, mut aliases) = (Vec::new(), Vec::new());
        while let [cell, rest @ ..] = fields {
            expressions.push(self.cells.get(cell)?);
            let (alias, rest) = match rest {
                ["as", alias, rest @ ..] => (Label::Unqualified(alias.to_string()), rest),
                rest => (Label::None, rest),
            };
            aliases.push(alias);
            fields = rest;
        }
        Ok(Node::Projection { source: self.source(source)?, expressions, aliases })
    }

    fn keys(&self, fields: Fields) -> Result<Vec<(Expression, Direction)>, String> {
        let key = |key: &[&str]| match key {
            [cell, "asc"] => Ok((self.cells.get(cell)?, Direction::Ascending)),
            [cell, "desc"] => Ok((self.cells.get(cell)?, Direction::Descending)),
            _ => Err(format!("the key {key:?}")),
        };
        fields.chunks(2).map(key).collect()
    }
}
