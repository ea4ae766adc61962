//! Refusals: the reason by its number, the text and the line.

use core::fmt;

use crate::texts;

/// One of the two texts.
#[derive(Clone, Copy, Debug, PartialEq, Eq, Hash)]
pub enum Text {
    /// The catalog.
    Catalog,
    /// The statement.
    Statement,
}

impl fmt::Display for Text {
    fn fmt(&self, f: &mut fmt::Formatter<'_>) -> fmt::Result {
        f.write_str(match self {
            Text::Catalog => "catalog",
            Text::Statement => "statement",
        })
    }
}

macro_rules! reasons {
    ($($number:literal $reason:ident $meaning:literal,)*) => {
        /// Why a statement is refused. `docs/REFUSALS.md` has an example of each.
        #[derive(Clone, Copy, Debug, PartialEq, Eq, Hash)]
        #[non_exhaustive]
        #[repr(u8)]
        pub enum Reason {
            $(#[doc = concat!(stringify!($number), ": ", $meaning, ".")] $reason = $number,)*
        }

        impl Reason {
            /// All of them, by their numbers.
            pub const ALL: &'static [Reason] = &[$(Reason::$reason,)*];

            /// What it means, in a few words.
            pub fn meaning(self) -> &'static str {
                match self {
                    $(Reason::$reason => $meaning,)*
                }
            }
        }
    };
}

reasons! {
    1 AreaTooShort "the plan area is too short",
    2 WrongRecord "the record is wrong, missing or left over",
    3 LimitPassed "a limit is passed",
    4 OtherStatement "a statement of a kind that has no plan",
    5 UnknownTable "there is no such table",
    6 TableNameTaken "FROM has a table of this name already",
    7 UnknownQualifier "no table in reach has this name",
    8 UnknownColumn "there is no such column",
    9 AmbiguousColumn "several columns have this name",
    10 NoColumns "no columns are in reach",
    11 UngroupedColumn "the column is neither grouped by nor in an aggregate",
    12 MisplacedStar "a star where an expression should stand",
    13 UnknownFunction "a function that may not stand here, or of a wrong number of arguments",
    14 AggregateArguments "an aggregate takes one argument",
    15 NestedAggregate "an aggregate within an aggregate",
    16 StarWithoutFrom "a star, and nothing to take columns from",
    17 HavingWithoutAggregate "HAVING without groups or aggregates",
    18 OffsetNoCount "OFFSET is no integer of 0 or more",
    19 LimitNoCount "LIMIT is no integer of 0 or more",
    20 NoKey "the table has no primary key",
    21 SeveralKeys "the table has more than one primary key",
    22 UnknownInsertedColumn "the table has no column of this name",
    23 RepeatedInsertedColumn "the column is named twice",
    24 NoDefault "the column has no default",
    25 Overflow "a constant is too large",
    26 DivisionByZero "an integer is divided by zero",
    27 OperandKinds "the operator does not take operands of these kinds",
    28 NotWorkedOut "a constant that is not worked out here",
    29 IsNeitherNullNorNan "IS takes NULL or NAN alone",
}

impl Reason {
    /// Its number, which never changes.
    pub fn number(self) -> u8 {
        self as u8
    }

    /// The reason of a number.
    pub fn of(number: u32) -> Option<Reason> {
        Self::ALL.iter().copied().find(|reason| u32::from(reason.number()) == number)
    }
}

impl fmt::Display for Reason {
    fn fmt(&self, f: &mut fmt::Formatter<'_>) -> fmt::Result {
        f.write_str(self.meaning())
    }
}

/// A refusal: why, and at which record of which text.
#[derive(Clone, Copy, Debug, PartialEq, Eq)]
pub struct Refusal {
    /// Why.
    pub reason: Reason,
    /// The text that it is about.
    pub text: Text,
    /// The line of the record where it arose, from 1; 0 where it is about no record. A record that is missing at the end
    /// has the line behind the last.
    pub line: u32,
}

impl Refusal {
    /// The record that it points at, without its LF; none where it is about no record, or about a missing one.
    pub fn record<'a>(&self, catalog: &'a [u8], statement: &'a [u8]) -> Option<&'a [u8]> {
        match self.text {
            Text::Catalog => texts::line(catalog, self.line),
            Text::Statement => texts::line(statement, self.line),
        }
    }

    /// The line of the listing: `refused`, number, text and line, parted by tabs, without an LF.
    pub fn listing(&self) -> impl fmt::Display + use<> {
        let Refusal { reason, text, line } = *self;
        Printed { number: reason.number(), text, line }
    }
}

/// The numbers of a refusal as the listing has them.
struct Printed {
    number: u8,
    text: Text,
    line: u32,
}

impl fmt::Display for Printed {
    fn fmt(&self, f: &mut fmt::Formatter<'_>) -> fmt::Result {
        write!(f, "refused\t{}\t{}\t{}", self.number, self.text, self.line)
    }
}

impl fmt::Display for Refusal {
    fn fmt(&self, f: &mut fmt::Formatter<'_>) -> fmt::Result {
        let Refusal { reason, text, line } = self;
        match line {
            0 => write!(f, "refused ({}), {text}: {reason}", reason.number()),
            _ => write!(f, "refused ({}), {text} line {line}: {reason}", reason.number()),
        }
    }
}

impl core::error::Error for Refusal {}
