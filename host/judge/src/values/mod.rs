//! The proved operators held to the Rust's `evaluate`, one operator at a time on constants.

mod operands;
mod tally;
mod times;

use oracle::Answer;
use texts::Literal;
use values::{Operation, Worked};

use crate::{traps, worked_out};

pub use operands::{Pair, edge_pairs, pair};
pub use tally::Tally;
pub use times::times;

/// Whether the proved operators were linked.
pub const LINKED: bool = values::AVAILABLE;

/// Whether the proved operators and the Rust's sources were at hand when this was built.
pub const AVAILABLE: bool = values::AVAILABLE && oracle::AVAILABLE;

/// What a comparison comes to.
#[derive(Clone, Debug, PartialEq)]
pub enum Verdict {
    /// The same value; all NaNs are one.
    Value,
    /// Refused by both, with the same number: 25, 26 or 27.
    Refused(u32),
    /// Refused with 28, which document 01 puts outside the equality.
    NotWorkedOut,
    /// Refused with 25 where the Rust traps.
    Trap,
    /// The operators are not linked, or the Rust's sources are not at hand.
    NotCompared,
    Differ(String),
}

/// The NaN that every operator gives.
const NAN: u64 = 0x7ff8_0000_0000_0000;

/// Compares an operator on as many of two operands as it takes.
pub fn compare(operation: Operation, pair: &Pair) -> Verdict {
    let operands = &pair[..operation.arity()];
    compare_answers(operation, operands, &values::work_out(operation, operands))
}

/// Compares what an operator gave with the Rust's.
pub fn compare_answers(operation: Operation, operands: &[Literal], worked: &Worked) -> Verdict {
    let expression = operation.expression(operands);
    let answer = oracle::evaluate(&expression);
    let not_worked_out = worked_out::is_refused(&expression.kind, operands);
    match (worked, &answer) {
        (Worked::Unavailable, _) | (_, Answer::Unavailable) => Verdict::NotCompared,
        (Worked::Refused(28), Answer::Given(_) | Answer::NotSupplied) if not_worked_out => {
            Verdict::NotWorkedOut
        }
        (Worked::Value(value), Answer::Given(rust)) if !not_worked_out && same(value, rust) => Verdict::Value,
        (Worked::Refused(25), Answer::Trapped(message)) if traps::is_overflow(message) => Verdict::Trap,
        (Worked::Refused(number @ 25..=27), Answer::Refused { number: rust, .. })
            if *number == u32::from(*rust) =>
        {
            Verdict::Refused(*number)
        }
        _ => Verdict::Differ(format!("{} {operands:?}: {worked:?}, the Rust {answer:?}", operation.word())),
    }
}

fn same(value: &Literal, rust: &Literal) -> bool {
    match value {
        Literal::Float(bits) if value.is_nan() => *bits == NAN && rust.is_nan(),
        _ => value == rust,
    }
}

/// Compares every operator on a pair.
pub fn compare_all(pair: &Pair, tally: &mut Tally) {
    for operation in Operation::all() {
        tally.add(operation, compare(operation, pair));
    }
}
