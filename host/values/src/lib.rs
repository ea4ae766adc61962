//! The proved operators on values (crate `value_host`), linked from their static library.
//!
//! Where the library was not at hand when this crate was built, [`AVAILABLE`] is false and [`work_out`] always gives
//! [`Worked::Unavailable`].

#[cfg(operators)]
mod linked;
mod operation;

use texts::Literal;

pub use operation::Operation;

/// Whether the operators were linked.
pub const AVAILABLE: bool = cfg!(operators);

/// What an operator gives.
#[derive(Clone, Debug, PartialEq)]
pub enum Worked {
    Value(Literal),
    /// Refused, with document 01's number.
    Refused(u32),
    /// The operators are not linked.
    Unavailable,
}

/// Works out an operator on its operands, of which there are as many as it takes.
#[cfg(operators)]
pub fn work_out(operation: Operation, operands: &[Literal]) -> Worked {
    linked::work_out(operation, operands)
}

/// Works out an operator on its operands, of which there are as many as it takes.
#[cfg(not(operators))]
pub fn work_out(_: Operation, _: &[Literal]) -> Worked {
    Worked::Unavailable
}
