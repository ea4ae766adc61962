//! How long the proved operators take where a loop by the operand's size would take long.

use std::fmt;
use std::time::{Duration, Instant};

use texts::{Literal, Operator};
use values::Operation;

const GREATEST_EXPONENT: i64 = 4_294_967_295;

/// One call and its time.
pub struct Timed {
    operation: Operation,
    operands: Vec<i64>,
    worked: values::Worked,
    time: Duration,
}

/// Powers with the greatest exponent, and the factorial of the greatest integer.
pub fn times() -> Vec<Timed> {
    let pow = [0, 1, -1, 2, -2, i64::MIN].map(|base| (Operator::Pow, vec![base, GREATEST_EXPONENT]));
    let fact = [(Operator::Fact, vec![i64::MAX])];
    pow.into_iter()
        .chain(fact)
        .map(|(operator, operands)| timed(Operation::Operator(operator), operands))
        .collect()
}

fn timed(operation: Operation, operands: Vec<i64>) -> Timed {
    let literals: Vec<Literal> = operands.iter().copied().map(Literal::Int).collect();
    let start = Instant::now();
    let worked = values::work_out(operation, &literals);
    Timed { operation, operands, worked, time: start.elapsed() }
}

impl fmt::Display for Timed {
    fn fmt(&self, f: &mut fmt::Formatter<'_>) -> fmt::Result {
        let Timed { operation, operands, worked, time } = self;
        write!(f, "{} {operands:?}: {worked:?} in {time:?}", operation.word())
    }
}
