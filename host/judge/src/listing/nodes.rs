//! The nodes of a printed plan.

use texts::Tree;

use super::cells::Plan;
use super::fields::{Fields, decimal, number, word};

const AGGREGATES: [&str; 5] = ["avg", "count", "max", "min", "sum"];

impl Plan {
    pub fn node(&mut self, fields: Fields, statement: &str) -> Result<Tree, String> {
        match fields.as_slice() {
            [b"scan", table, rest @ ..] => {
                let mut parts = vec![Tree::bytes(*table)];
                match rest {
                    [] => {}
                    [b"as", alias] if statement == "select" => parts.extend(Tree::alias(Some(*alias))),
                    [filter] if statement != "select" => parts.push(self.use_cell(filter)?),
                    _ => return Err("a scan with fields left over".to_string()),
                }
                Ok(Tree::list("scan", parts))
            }
            [b"values", rest @ ..] => self.values(rest),
            [b"join", left, right, kind @ (b"inner" | b"outer"), predicate @ ..] => {
                let kind = Tree::word(word(kind)?);
                let mut parts = vec![self.use_node(left)?, self.use_node(right)?, kind];
                match predicate {
                    [] => {}
                    [cell] => parts.push(self.use_cell(cell)?),
                    _ => return Err("a join with fields left over".to_string()),
                }
                Ok(Tree::list("join", parts))
            }
            [b"filter", source, cell] => {
                Ok(Tree::list("filter", [self.use_node(source)?, self.use_cell(cell)?]))
            }
            [b"aggregate", source, rest @ ..] => self.aggregate(source, rest),
            [b"project", source, rest @ ..] => self.project(source, rest),
            [b"order", source, rest @ ..] => self.order(source, rest),
            [b"offset", source, rows] => Ok(Tree::list("offset", [self.use_node(source)?, number(rows)?])),
            [b"limit", source, rows] => Ok(Tree::list("limit", [self.use_node(source)?, number(rows)?])),
            [b"remap", source, targets @ ..] => {
                let mut parts = vec![self.use_node(source)?];
                for target in targets {
                    parts.push(if *target == b"-" { Tree::word("-") } else { number(target)? });
                }
                Ok(Tree::list("remap", parts))
            }
            _ => Err("a node of no known kind and fields".to_string()),
        }
    }

    fn values(&mut self, mut fields: &[&[u8]]) -> Result<Tree, String> {
        let mut rows = Vec::new();
        while let [b"row", width, rest @ ..] = fields {
            let width: usize = decimal(word(width)?)?;
            if rest.len() < width {
                return Err("a row with a cell missing".to_string());
            }
            let (row, rest) = rest.split_at(width);
            let row = row.iter().map(|cell| self.use_cell(cell)).collect::<Result<Vec<_>, _>>()?;
            rows.push(Tree::list("row", row));
            fields = rest;
        }
        if fields.is_empty() {
            Ok(Tree::list("values", rows))
        } else {
            Err("values with fields left over".to_string())
        }
    }

    fn aggregate(&mut self, source: &[u8], mut fields: &[&[u8]]) -> Result<Tree, String> {
        let mut parts = vec![self.use_node(source)?];
        let name = |field: &[u8]| AGGREGATES.into_iter().find(|name| name.as_bytes() == field);
        while let [cell, rest @ ..] = fields {
            if name(cell).is_some() {
                break;
            }
            parts.push(Tree::list("group", [self.use_cell(cell)?]));
            fields = rest;
        }
        while let [function, cell, rest @ ..] = fields {
            let head = name(function).ok_or("an aggregate of no known name")?;
            parts.push(Tree::list(head, [self.use_cell(cell)?]));
            fields = rest;
        }
        if fields.is_empty() {
            Ok(Tree::list("aggregate", parts))
        } else {
            Err("an aggregate without its cell".to_string())
        }
    }

    fn project(&mut self, source: &[u8], mut fields: &[&[u8]]) -> Result<Tree, String> {
        let mut parts = vec![self.use_node(source)?];
        while let [cell, rest @ ..] = fields {
            let mut item = vec![self.use_cell(cell)?];
            fields = rest;
            if let [b"as", alias, rest @ ..] = fields {
                item.extend(Tree::alias(Some(*alias)));
                fields = rest;
            }
            parts.push(Tree::list("item", item));
        }
        Ok(Tree::list("project", parts))
    }

    fn order(&mut self, source: &[u8], fields: &[&[u8]]) -> Result<Tree, String> {
        let mut parts = vec![self.use_node(source)?];
        for key in fields.chunks(2) {
            let head = match key {
                [_, b"asc"] => "asc",
                [_, b"desc"] => "desc",
                _ => return Err("an order key without its direction".to_string()),
            };
            parts.push(Tree::list(head, [self.use_cell(key[0])?]));
        }
        Ok(Tree::list("order", parts))
    }
}
