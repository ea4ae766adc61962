//! Nodes taken from the area's numbers.

use super::{Aggregate, Function, Item, Key, Node, Rows};
use crate::list::{Bounds, Element, List};
use crate::numbers::{Fault, Numbers};
use crate::values::{CellNumber, Column, NodeNumber};

impl<'a> Node<'a> {
    /// The node of a number that stands first in the numbers, which are then those behind it.
    pub(crate) fn take(node: u32, numbers: &mut Numbers<'a>, bounds: Bounds<'a>) -> Result<Self, Fault> {
        let no_kind = numbers.fault("no kind of node");
        let kind = numbers.take()?;
        let length = numbers.take()?;
        let mut own = numbers.part(length as usize)?;
        let taken = match kind {
            1 => take_scan(&mut own, bounds)?,
            2 => Node::Values { rows: Rows::of(own.rest(), bounds)? },
            3 => take_join(node, &mut own, bounds)?,
            4..=10 => take_over_source(kind, take_source(node, &mut own)?, &mut own, bounds)?,
            _ => return Err(no_kind),
        };
        own.expect_end()?;
        Ok(taken)
    }
}

fn take_scan<'a>(numbers: &mut Numbers<'a>, bounds: Bounds<'a>) -> Result<Node<'a>, Fault> {
    let table = bounds.texts.take_name(numbers)?;
    let filter = take_optional_cell(numbers, bounds)?;
    let alias = bounds.texts.take_optional_name(numbers)?;
    Ok(Node::Scan { table, alias, filter })
}

fn take_join<'a>(node: u32, numbers: &mut Numbers<'a>, bounds: Bounds<'a>) -> Result<Node<'a>, Fault> {
    let not_rising = numbers.fault("a left source that does not stand before the right one");
    let (left, right) = (take_source(node, numbers)?, take_source(node, numbers)?);
    if left >= right {
        return Err(not_rising);
    }
    let outer = numbers.take_flag()?;
    Ok(Node::Join { left, right, outer, predicate: take_optional_cell(numbers, bounds)? })
}

/// The nodes that have one source, which stands first and was taken.
fn take_over_source<'a>(
    kind: u32,
    source: NodeNumber,
    numbers: &mut Numbers<'a>,
    bounds: Bounds<'a>,
) -> Result<Node<'a>, Fault> {
    Ok(match kind {
        4 => Node::Filter { source, predicate: CellNumber::take(numbers, bounds)? },
        5 => {
            let groups = numbers.take()?;
            let groups = List::of(numbers.part(groups as usize)?, bounds)?;
            Node::Aggregate { source, groups, aggregates: List::of(numbers.rest(), bounds)? }
        }
        6 => Node::Project { source, items: List::of(numbers.rest(), bounds)? },
        7 => Node::Order { source, keys: List::of(numbers.rest(), bounds)? },
        8 => Node::Offset { source, rows: take_rows(numbers)? },
        9 => Node::Limit { source, rows: take_rows(numbers)? },
        _ => Node::Remap { source, targets: List::of(numbers.rest(), bounds)? },
    })
}

fn take_source(node: u32, numbers: &mut Numbers) -> Result<NodeNumber, Fault> {
    numbers.take_below(node, "a source that does not stand before its user").map(NodeNumber)
}

fn take_optional_cell(numbers: &mut Numbers, bounds: Bounds) -> Result<Option<CellNumber>, Fault> {
    Ok(numbers.take_optional(bounds.cells, "no cell's number")?.map(CellNumber))
}

/// A number of rows, which is an integer of 0 or more.
fn take_rows(numbers: &mut Numbers) -> Result<u64, Fault> {
    let too_many = numbers.fault("more rows than an integer counts");
    let rows = numbers.take_long()?;
    if rows < 1 << 63 { Ok(rows) } else { Err(too_many) }
}

impl<'a> Element<'a> for Aggregate {
    const SIZE: usize = 2;

    fn take(numbers: &mut Numbers<'a>, bounds: Bounds<'a>) -> Result<Self, Fault> {
        let function = numbers.take_code(&Function::ALL, "no aggregate's code")?;
        Ok(Aggregate { function, argument: CellNumber::take(numbers, bounds)? })
    }
}

impl<'a> Element<'a> for Item<'a> {
    const SIZE: usize = 3;

    fn take(numbers: &mut Numbers<'a>, bounds: Bounds<'a>) -> Result<Self, Fault> {
        let cell = CellNumber::take(numbers, bounds)?;
        Ok(Item { cell, alias: bounds.texts.take_optional_name(numbers)? })
    }
}

impl<'a> Element<'a> for Key {
    const SIZE: usize = 2;

    fn take(numbers: &mut Numbers<'a>, bounds: Bounds<'a>) -> Result<Self, Fault> {
        let cell = CellNumber::take(numbers, bounds)?;
        Ok(Key { cell, descending: numbers.take_flag()? })
    }
}

impl<'a> Element<'a> for Option<Column> {
    const SIZE: usize = 1;

    fn take(numbers: &mut Numbers<'a>, _: Bounds<'a>) -> Result<Self, Fault> {
        Ok(numbers.take()?.checked_sub(1).map(Column))
    }
}

/// A row of values: how many cells, and those.
pub fn take_row<'a>(numbers: &mut Numbers<'a>, bounds: Bounds<'a>) -> Result<List<'a, CellNumber>, Fault> {
    let width = numbers.take()?;
    List::of(numbers.part(width as usize)?, bounds)
}
