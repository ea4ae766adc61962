//! The operators that are worked out.

use texts::{Expr, ExprKind, Literal, Operator};

#[derive(Clone, Copy, Debug, PartialEq, Eq)]
pub enum Operation {
    Operator(Operator),
    Sqrt,
    IsNull,
    IsNan,
}

impl Operation {
    pub fn all() -> impl Iterator<Item = Operation> {
        let operators = Operator::ALL.into_iter().map(Operation::Operator);
        operators.chain([Operation::Sqrt, Operation::IsNull, Operation::IsNan])
    }

    pub fn word(self) -> &'static str {
        match self {
            Operation::Operator(operator) => operator.word(),
            Operation::Sqrt => "sqrt",
            Operation::IsNull => "is null",
            Operation::IsNan => "is nan",
        }
    }

    /// The number of operands.
    pub fn arity(self) -> usize {
        match self {
            Operation::Operator(operator) => operator.arity(),
            Operation::Sqrt | Operation::IsNull | Operation::IsNan => 1,
        }
    }

    /// The expression of the operator on literals.
    pub fn expression(self, operands: &[Literal]) -> Expr {
        let mut operands: Vec<Expr> =
            operands.iter().map(|operand| ExprKind::Literal(operand.clone()).into()).collect();
        match self {
            Operation::Operator(operator) => ExprKind::Operator(operator, operands),
            Operation::Sqrt => ExprKind::Function { name: b"sqrt".to_vec(), arguments: operands },
            Operation::IsNull => ExprKind::Is(Box::new(operands.remove(0)), Literal::Null),
            Operation::IsNan => {
                ExprKind::Is(Box::new(operands.remove(0)), Literal::Float(f64::NAN.to_bits()))
            }
        }
        .into()
    }

    /// The rules' code of an operator other than `is` (Codes.antt, `unary_code` and `binary_code`).
    #[cfg(operators)]
    pub(crate) fn code(self) -> Option<u32> {
        Some(match self {
            Operation::Operator(operator) => code(operator),
            Operation::Sqrt => 12,
            Operation::IsNull | Operation::IsNan => return None,
        })
    }
}

#[cfg(operators)]
fn code(operator: Operator) -> u32 {
    match operator {
        Operator::Not => 8,
        Operator::Fact => 9,
        Operator::Ident => 10,
        Operator::Neg => 11,
        Operator::And => 16,
        Operator::Or => 17,
        Operator::Eq => 18,
        Operator::Gt => 19,
        Operator::Lt => 20,
        Operator::Add => 21,
        Operator::Div => 22,
        Operator::Pow => 23,
        Operator::Mul => 24,
        Operator::Rem => 25,
        Operator::Sub => 26,
        Operator::Like => 27,
        Operator::Ge => 28,
        Operator::Le => 29,
        Operator::Ne => 30,
    }
}
