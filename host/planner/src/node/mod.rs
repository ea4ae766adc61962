//! The nodes of a plan.

mod take;

use crate::list::{Bounds, List};
use crate::numbers::{Fault, Numbers};
use crate::values::{CellNumber, Column, NodeNumber};
use take::take_row;

/// A node of a plan: what gives rows. Names are bytes of the statement.
#[derive(Clone, Copy, Debug)]
pub enum Node<'a> {
    /// The rows of a table.
    Scan {
        /// The table's name.
        table: &'a [u8],
        /// The name that the statement gives it.
        alias: Option<&'a [u8]>,
        /// What its rows are filtered by, in DELETE and UPDATE.
        filter: Option<CellNumber>,
    },
    /// Given rows.
    Values {
        /// The rows.
        rows: Rows<'a>,
    },
    /// The join of two sources.
    Join {
        /// The left source.
        left: NodeNumber,
        /// The right source.
        right: NodeNumber,
        /// Whether a left row without a right one is kept.
        outer: bool,
        /// What pairs of rows are kept, if not all.
        predicate: Option<CellNumber>,
    },
    /// The rows for which a predicate holds.
    Filter {
        /// Where its rows come from.
        source: NodeNumber,
        /// The predicate.
        predicate: CellNumber,
    },
    /// Groups, and aggregates over them.
    Aggregate {
        /// Where its rows come from.
        source: NodeNumber,
        /// What the rows are grouped by; these columns come first.
        groups: List<'a, CellNumber>,
        /// The aggregates; these columns come behind the groups.
        aggregates: List<'a, Aggregate>,
    },
    /// A projection.
    Project {
        /// Where its rows come from.
        source: NodeNumber,
        /// Its columns.
        items: List<'a, Item<'a>>,
    },
    /// The rows sorted.
    Order {
        /// Where its rows come from.
        source: NodeNumber,
        /// What they are sorted by, the first key first.
        keys: List<'a, Key>,
    },
    /// All rows but the first.
    Offset {
        /// Where its rows come from.
        source: NodeNumber,
        /// How many are left out.
        rows: u64,
    },
    /// The first rows.
    Limit {
        /// Where its rows come from.
        source: NodeNumber,
        /// How many.
        rows: u64,
    },
    /// The columns rearranged.
    Remap {
        /// Where its rows come from.
        source: NodeNumber,
        /// For each column of the source where it goes; none where it is dropped.
        targets: List<'a, Option<Column>>,
    },
}

/// An aggregate function on a cell.
#[derive(Clone, Copy, Debug, PartialEq, Eq)]
pub struct Aggregate {
    /// The function.
    pub function: Function,
    /// Its argument.
    pub argument: CellNumber,
}

/// The aggregate functions.
#[derive(Clone, Copy, Debug, PartialEq, Eq, Hash)]
pub enum Function {
    /// The mean.
    Average,
    /// How many.
    Count,
    /// The greatest.
    Max,
    /// The least.
    Min,
    /// The sum.
    Sum,
}

impl Function {
    /// All of them, in the order of their codes in the area.
    pub const ALL: [Function; 5] =
        [Function::Average, Function::Count, Function::Max, Function::Min, Function::Sum];

    /// Its name in a statement and in the listing.
    pub fn word(self) -> &'static str {
        match self {
            Function::Average => "avg",
            Function::Count => "count",
            Function::Max => "max",
            Function::Min => "min",
            Function::Sum => "sum",
        }
    }
}

/// A column of a projection.
#[derive(Clone, Copy, Debug, PartialEq, Eq)]
pub struct Item<'a> {
    /// What it is.
    pub cell: CellNumber,
    /// The name that the statement gives it.
    pub alias: Option<&'a [u8]>,
}

/// A key that rows are sorted by.
#[derive(Clone, Copy, Debug, PartialEq, Eq)]
pub struct Key {
    /// The key.
    pub cell: CellNumber,
    /// The greatest first.
    pub descending: bool,
}

/// The rows of a [`Node::Values`].
#[derive(Clone, Copy)]
pub struct Rows<'a> {
    numbers: Numbers<'a>,
    bounds: Bounds<'a>,
}

impl<'a> Rows<'a> {
    pub(super) fn of(mut numbers: Numbers<'a>, bounds: Bounds<'a>) -> Result<Self, Fault> {
        let rows = Rows { numbers, bounds };
        while !numbers.is_empty() {
            take_row(&mut numbers, bounds)?;
        }
        Ok(rows)
    }

    /// The cells of each row.
    pub fn iter(&self) -> impl Iterator<Item = List<'a, CellNumber>> + use<'a> {
        let Rows { mut numbers, bounds } = *self;
        core::iter::from_fn(
            move || if numbers.is_empty() { None } else { take_row(&mut numbers, bounds).ok() },
        )
    }
}

impl core::fmt::Debug for Rows<'_> {
    fn fmt(&self, f: &mut core::fmt::Formatter<'_>) -> core::fmt::Result {
        f.debug_list().entries(self.iter()).finish()
    }
}

impl Node<'_> {
    /// Its sources, left before right.
    pub fn sources(&self) -> impl Iterator<Item = NodeNumber> + use<> {
        let (first, second) = match *self {
            Node::Scan { .. } | Node::Values { .. } => (None, None),
            Node::Join { left, right, .. } => (Some(left), Some(right)),
            Node::Filter { source, .. }
            | Node::Aggregate { source, .. }
            | Node::Project { source, .. }
            | Node::Order { source, .. }
            | Node::Offset { source, .. }
            | Node::Limit { source, .. }
            | Node::Remap { source, .. } => (Some(source), None),
        };
        first.into_iter().chain(second)
    }
}
