//! The numbers of cells, nodes and columns, each a type of its own, and the constants.

use core::fmt;

use crate::list::{Bounds, Element};
use crate::numbers::{Fault, Numbers};
use crate::texts::Texts;

macro_rules! number {
    ($(#[$meta:meta])* $name:ident) => {
        $(#[$meta])*
        #[derive(Clone, Copy, Debug, PartialEq, Eq, PartialOrd, Ord, Hash)]
        pub struct $name(pub(crate) u32);

        impl $name {
            /// The number itself, from 0.
            pub fn get(self) -> u32 {
                self.0
            }

            /// The number as an index.
            pub fn index(self) -> usize {
                self.0 as usize
            }
        }

        impl fmt::Display for $name {
            fn fmt(&self, f: &mut fmt::Formatter<'_>) -> fmt::Result {
                self.0.fmt(f)
            }
        }
    };
}

number! {
    /// The number of a cell of a plan. An operand's is below its user's.
    CellNumber
}
number! {
    /// The number of a node of a plan. A source's is below its user's; the last node is the plan's.
    NodeNumber
}
number! {
    /// The position of a column: of a table, or of the rows that a node gives.
    Column
}
number! {
    /// The position of a value in an inserted row.
    ValuePosition
}

impl<'a> Element<'a> for CellNumber {
    const SIZE: usize = 1;

    fn take(numbers: &mut Numbers<'a>, bounds: Bounds<'a>) -> Result<Self, Fault> {
        numbers.take_below(bounds.cells, "no cell's number").map(CellNumber)
    }
}

/// A constant, in place: the bytes of a text are those of the catalog or statement.
#[derive(Clone, Copy, Debug, PartialEq, Eq)]
pub enum Constant<'a> {
    /// NULL.
    Null,
    /// TRUE or FALSE.
    Bool(bool),
    /// A 64-bit integer.
    Int(i64),
    /// A float, by its bits.
    Float(FloatBits),
    /// The bytes of a text, which need not be UTF-8.
    Text(&'a [u8]),
}

/// The 64 bits of a float. Two are equal where their bits are, so that every NaN is kept as it was given.
#[derive(Clone, Copy, Debug, PartialEq, Eq)]
pub struct FloatBits(pub u64);

impl FloatBits {
    /// The float.
    pub fn value(self) -> f64 {
        f64::from_bits(self.0)
    }
}

impl<'a> Constant<'a> {
    /// The kinds of cells that are constants.
    pub(crate) const KINDS: core::ops::RangeInclusive<u32> = 1..=5;

    /// What stands behind the kind.
    pub(crate) fn take(kind: u32, numbers: &mut Numbers<'a>, texts: Texts<'a>) -> Result<Self, Fault> {
        Ok(match kind {
            1 => Constant::Null,
            2 => Constant::Bool(numbers.take_flag()?),
            3 => Constant::Int(numbers.take_long()?.cast_signed()),
            4 => Constant::Float(FloatBits(numbers.take_long()?)),
            5 => Constant::Text(texts.take_text(numbers)?),
            _ => return Err(numbers.fault("behind a kind that is no constant's")),
        })
    }
}
