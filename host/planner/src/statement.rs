//! What a plan does with its rows: the statement's own part.

use crate::cell::CELL;
use crate::list::{Bounds, Element, List};
use crate::numbers::{Fault, Numbers};
use crate::values::{CellNumber, Column, Constant, NodeNumber, ValuePosition};

/// The kinds of statements that have a plan.
#[derive(Clone, Copy, Debug, PartialEq, Eq, Hash)]
pub enum Kind {
    /// SELECT.
    Select,
    /// CREATE TABLE.
    Create,
    /// DROP TABLE.
    Drop,
    /// DELETE.
    Delete,
    /// INSERT.
    Insert,
    /// UPDATE.
    Update,
}

impl Kind {
    /// All of them, in the order of their numbers in the area.
    pub const ALL: [Kind; 6] =
        [Kind::Select, Kind::Create, Kind::Drop, Kind::Delete, Kind::Insert, Kind::Update];

    /// Its word in the texts and in the listing.
    pub fn word(self) -> &'static str {
        match self {
            Kind::Select => "select",
            Kind::Create => "create",
            Kind::Drop => "drop",
            Kind::Delete => "delete",
            Kind::Insert => "insert",
            Kind::Update => "update",
        }
    }
}

/// What a plan does with the rows of its last node. Names are bytes of the statement.
#[derive(Clone, Copy, Debug)]
pub enum Statement<'a> {
    /// Its rows are the answer.
    Select {
        /// Where the rows come from.
        source: NodeNumber,
    },
    /// A table is made.
    Create {
        /// The table's name.
        table: &'a [u8],
        /// Its primary key.
        key: Column,
        /// Its columns.
        columns: List<'a, NewColumn<'a>>,
    },
    /// A table is dropped.
    Drop {
        /// The table's name.
        table: &'a [u8],
        /// Whether the table may be missing.
        if_exists: bool,
    },
    /// The rows are deleted.
    Delete {
        /// The table's name.
        table: &'a [u8],
        /// Its primary key.
        key: Column,
        /// Where the rows come from.
        source: NodeNumber,
    },
    /// The rows are inserted.
    Insert {
        /// The table's name.
        table: &'a [u8],
        /// Where each value goes; none where the statement names no columns, and the values go in the table's order.
        map: Option<List<'a, Mapping>>,
        /// Where the rows come from.
        source: NodeNumber,
    },
    /// The rows are changed.
    Update {
        /// The table's name.
        table: &'a [u8],
        /// Its primary key.
        key: Column,
        /// The new values.
        sets: List<'a, Set>,
        /// Where the rows come from.
        source: NodeNumber,
    },
}

/// A column of a new table.
#[derive(Clone, Copy, Debug, PartialEq, Eq)]
pub struct NewColumn<'a> {
    /// Its name.
    pub name: &'a [u8],
    /// Its type.
    pub datatype: DataType,
    /// Whether it may be NULL.
    pub nullable: bool,
    /// Whether its values differ.
    pub unique: bool,
    /// Whether it has an index.
    pub index: bool,
    /// The table that it refers to.
    pub reference: Option<&'a [u8]>,
    /// The value of a row that gives none.
    pub default: Option<Constant<'a>>,
}

/// The types of columns.
#[derive(Clone, Copy, Debug, PartialEq, Eq, Hash)]
pub enum DataType {
    /// TRUE or FALSE.
    Bool,
    /// A 64-bit integer.
    Int,
    /// A 64-bit float.
    Float,
    /// A text.
    Text,
}

impl DataType {
    /// All of them, in the order of their codes in the area.
    pub const ALL: [DataType; 4] = [DataType::Bool, DataType::Int, DataType::Float, DataType::Text];

    /// Its word in the texts and in the listing.
    pub fn word(self) -> &'static str {
        match self {
            DataType::Bool => "bool",
            DataType::Int => "int",
            DataType::Float => "float",
            DataType::Text => "text",
        }
    }
}

/// Where a value of an inserted row goes.
#[derive(Clone, Copy, Debug, PartialEq, Eq)]
pub struct Mapping {
    /// The column of the table.
    pub column: Column,
    /// The value of the row.
    pub value: ValuePosition,
}

/// A column's new value.
#[derive(Clone, Copy, Debug, PartialEq, Eq)]
pub struct Set {
    /// The column of the table.
    pub column: Column,
    /// The value.
    pub cell: CellNumber,
}

impl<'a> Statement<'a> {
    /// The statement's own part, from its own numbers; `source` is the last node.
    pub(crate) fn of(
        kind: Kind,
        source: Option<NodeNumber>,
        mut numbers: Numbers<'a>,
        bounds: Bounds<'a>,
    ) -> Result<Self, Fault> {
        let mismatch =
            numbers.fault("a statement without a node, or with cells or nodes that it has none of");
        let own = match (kind, source) {
            (Kind::Select, Some(source)) => Statement::Select { source },
            (Kind::Create, None) if bounds.cells == 0 => take_create(&mut numbers, bounds)?,
            (Kind::Drop, None) if bounds.cells == 0 => Statement::Drop {
                table: bounds.texts.take_name(&mut numbers)?,
                if_exists: numbers.take_flag()?,
            },
            (Kind::Delete, Some(source)) => Statement::Delete {
                table: bounds.texts.take_name(&mut numbers)?,
                key: Column(numbers.take()?),
                source,
            },
            (Kind::Insert, Some(source)) => take_insert(source, &mut numbers, bounds)?,
            (Kind::Update, Some(source)) => take_update(source, &mut numbers, bounds)?,
            _ => return Err(mismatch),
        };
        numbers.expect_end()?;
        Ok(own)
    }
}

fn take_create<'a>(numbers: &mut Numbers<'a>, bounds: Bounds<'a>) -> Result<Statement<'a>, Fault> {
    let table = bounds.texts.take_name(numbers)?;
    let no_column = numbers.fault("a key that is no column");
    let key = Column(numbers.take()?);
    let columns: List<NewColumn> = take_list(numbers, bounds)?;
    if key.index() < columns.len() { Ok(Statement::Create { table, key, columns }) } else { Err(no_column) }
}

fn take_insert<'a>(
    source: NodeNumber,
    numbers: &mut Numbers<'a>,
    bounds: Bounds<'a>,
) -> Result<Statement<'a>, Fault> {
    let table = bounds.texts.take_name(numbers)?;
    let map = match numbers.take()?.checked_sub(1) {
        Some(length) => {
            Some(List::of(numbers.part((length as usize).saturating_mul(Mapping::SIZE))?, bounds)?)
        }
        None => None,
    };
    Ok(Statement::Insert { table, map, source })
}

fn take_update<'a>(
    source: NodeNumber,
    numbers: &mut Numbers<'a>,
    bounds: Bounds<'a>,
) -> Result<Statement<'a>, Fault> {
    let table = bounds.texts.take_name(numbers)?;
    let key = Column(numbers.take()?);
    Ok(Statement::Update { table, key, sets: take_list(numbers, bounds)?, source })
}

/// How many elements, and those.
fn take_list<'a, T: Element<'a>>(
    numbers: &mut Numbers<'a>,
    bounds: Bounds<'a>,
) -> Result<List<'a, T>, Fault> {
    let length = numbers.take()?;
    List::of(numbers.part((length as usize).saturating_mul(T::SIZE))?, bounds)
}

impl<'a> Element<'a> for NewColumn<'a> {
    const SIZE: usize = 8 + CELL;

    fn take(numbers: &mut Numbers<'a>, bounds: Bounds<'a>) -> Result<Self, Fault> {
        Ok(NewColumn {
            name: bounds.texts.take_name(numbers)?,
            datatype: numbers.take_code(&DataType::ALL, "no type")?,
            nullable: numbers.take_flag()?,
            unique: numbers.take_flag()?,
            index: numbers.take_flag()?,
            reference: bounds.texts.take_optional_name(numbers)?,
            default: take_default(numbers.part(CELL)?, bounds)?,
        })
    }
}

/// A constant, or all 0 for none.
fn take_default<'a>(mut numbers: Numbers<'a>, bounds: Bounds<'a>) -> Result<Option<Constant<'a>>, Fault> {
    let default = match numbers.take()? {
        0 => None,
        kind => Some(Constant::take(kind, &mut numbers, bounds.texts)?),
    };
    numbers.expect_zeros()?;
    Ok(default)
}

impl<'a> Element<'a> for Mapping {
    const SIZE: usize = 2;

    fn take(numbers: &mut Numbers<'a>, _: Bounds<'a>) -> Result<Self, Fault> {
        Ok(Mapping { column: Column(numbers.take()?), value: ValuePosition(numbers.take()?) })
    }
}

impl<'a> Element<'a> for Set {
    const SIZE: usize = 2;

    fn take(numbers: &mut Numbers<'a>, bounds: Bounds<'a>) -> Result<Self, Fault> {
        Ok(Set { column: Column(numbers.take()?), cell: CellNumber::take(numbers, bounds)? })
    }
}
