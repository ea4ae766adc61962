//! The cells of a plan.

use crate::list::Bounds;
use crate::numbers::{Fault, Numbers};
use crate::values::{CellNumber, Column, Constant, FloatBits};

/// How many numbers a cell has.
pub const CELL: usize = 4;

/// A cell of a plan: an expression whose operands are earlier cells.
#[derive(Clone, Copy, Debug, PartialEq, Eq)]
pub enum Cell<'a> {
    /// A constant.
    Constant(Constant<'a>),
    /// A column of the rows that are read.
    Column(Column),
    /// An operator on one operand.
    Unary(Unary, CellNumber),
    /// An operator on two operands, left and right.
    Binary(Binary, CellNumber, CellNumber),
    /// IS NULL.
    IsNull(CellNumber),
    /// IS NAN, with the bits of the NaN that the statement gives.
    IsNan(CellNumber, FloatBits),
}

macro_rules! operators {
    ($(#[$meta:meta])* $name:ident, $($(#[$of_case:meta])* $case:ident $word:literal,)*) => {
        $(#[$meta])*
        #[derive(Clone, Copy, Debug, PartialEq, Eq, Hash)]
        pub enum $name {
            $($(#[$of_case])* $case,)*
        }

        impl $name {
            /// All of them, in the order of their kinds in the area.
            pub const ALL: &'static [$name] = &[$($name::$case,)*];

            /// Its word in the listing.
            pub fn word(self) -> &'static str {
                match self {
                    $($name::$case => $word,)*
                }
            }
        }
    };
}

operators! {
    /// The operators on one operand.
    Unary,
    /// NOT.
    Not "not",
    /// The factorial.
    Factorial "fact",
    /// A plus sign.
    Identity "ident",
    /// A minus sign.
    Negate "neg",
    /// The square root.
    SquareRoot "sqrt",
}

operators! {
    /// The operators on two operands.
    Binary,
    /// AND.
    And "and",
    /// OR.
    Or "or",
    /// Equal.
    Equal "eq",
    /// Greater than.
    GreaterThan "gt",
    /// Less than.
    LessThan "lt",
    /// The sum.
    Add "add",
    /// The quotient.
    Divide "div",
    /// The power.
    Exponentiate "pow",
    /// The product.
    Multiply "mul",
    /// The remainder.
    Remainder "rem",
    /// The difference.
    Subtract "sub",
    /// LIKE.
    Like "like",
}

const COLUMN: u32 = 6;
const FIRST_UNARY: u32 = 8;
const LAST_UNARY: u32 = 12;
const IS_NULL: u32 = 14;
const IS_NAN: u32 = 15;
const FIRST_BINARY: u32 = 16;
const LAST_BINARY: u32 = 27;

impl<'a> Cell<'a> {
    /// The cell of a number that the four numbers are. What is not named is 0.
    pub(crate) fn of(number: u32, mut numbers: Numbers<'a>, bounds: Bounds<'a>) -> Result<Self, Fault> {
        let no_kind = numbers.fault("no kind of cell");
        let kind = numbers.take()?;
        let cell = match kind {
            COLUMN => Cell::Column(Column(numbers.take()?)),
            FIRST_UNARY..=LAST_UNARY => {
                Cell::Unary(Unary::ALL[(kind - FIRST_UNARY) as usize], take_operand(number, &mut numbers)?)
            }
            IS_NULL => Cell::IsNull(take_operand(number, &mut numbers)?),
            IS_NAN => Cell::IsNan(take_operand(number, &mut numbers)?, take_nan(&mut numbers)?),
            FIRST_BINARY..=LAST_BINARY => {
                let (left, right) = take_operands(number, &mut numbers)?;
                Cell::Binary(Binary::ALL[(kind - FIRST_BINARY) as usize], left, right)
            }
            _ if Constant::KINDS.contains(&kind) => {
                Cell::Constant(Constant::take(kind, &mut numbers, bounds.texts)?)
            }
            _ => return Err(no_kind),
        };
        numbers.expect_zeros()?;
        Ok(cell)
    }

    /// Its operands, left before right.
    pub fn operands(self) -> impl Iterator<Item = CellNumber> {
        let (first, second) = match self {
            Cell::Constant(_) | Cell::Column(_) => (None, None),
            Cell::Unary(_, operand) | Cell::IsNull(operand) | Cell::IsNan(operand, _) => {
                (Some(operand), None)
            }
            Cell::Binary(_, left, right) => (Some(left), Some(right)),
        };
        first.into_iter().chain(second)
    }
}

fn take_operand(user: u32, numbers: &mut Numbers) -> Result<CellNumber, Fault> {
    numbers.take_below(user, "an operand that does not stand before its user").map(CellNumber)
}

/// Two operands, the left one below the right one.
fn take_operands(user: u32, numbers: &mut Numbers) -> Result<(CellNumber, CellNumber), Fault> {
    let not_rising = numbers.fault("a left operand that does not stand before the right one");
    let (left, right) = (take_operand(user, numbers)?, take_operand(user, numbers)?);
    if left < right { Ok((left, right)) } else { Err(not_rising) }
}

fn take_nan(numbers: &mut Numbers) -> Result<FloatBits, Fault> {
    let no_nan = numbers.fault("no NaN");
    let bits = FloatBits(numbers.take_long()?);
    if bits.value().is_nan() { Ok(bits) } else { Err(no_nan) }
}
