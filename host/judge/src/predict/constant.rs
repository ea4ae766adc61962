//! Working out a constant.

use texts::{Expr, ExprKind, Literal, Operator, Refusal};

use super::plan::Plan;
use super::scope::Scope;

/// The value of an expression that may name no column.
pub fn constant(expr: &Expr) -> Result<Literal, Refusal> {
    Plan::default().expression(expr, &Scope::default())?;
    evaluate(expr)
}

/// Works out an expression that builds over an empty scope.
fn evaluate(expr: &Expr) -> Result<Literal, Refusal> {
    let values = expr.operands().iter().map(evaluate).collect::<Result<Vec<_>, _>>()?;
    let value = match &expr.kind {
        ExprKind::Literal(literal) => Ok(literal.clone()),
        ExprKind::Function { .. } => square_root(&values[0]),
        ExprKind::Is(_, Literal::Null) => Ok(Literal::Bool(values[0] == Literal::Null)),
        ExprKind::Is(..) => is_nan(&values[0]),
        ExprKind::Operator(operator, _) => match values.as_slice() {
            [operand] => unary(*operator, operand),
            [left, right] => binary(*operator, left, right),
            _ => unreachable!("an operator has one operand or two"),
        },
        ExprKind::Star | ExprKind::Column { .. } => unreachable!("refused when it was built"),
    };
    value.map_err(|number| Refusal::in_statement(number, expr.line))
}

/// A value worked out, or the number of the refusal.
type Worked = Result<Literal, u8>;

/// A float that an operator gives; every NaN is stored as one.
fn float(value: f64) -> Literal {
    Literal::Float(if value.is_nan() { 0x7ff8_0000_0000_0000 } else { value.to_bits() })
}

fn integer(value: Option<i64>) -> Worked {
    value.map(Literal::Int).ok_or(25)
}

fn square_root(operand: &Literal) -> Worked {
    match operand {
        Literal::Null => Ok(Literal::Null),
        Literal::Float(_) => Err(28),
        Literal::Int(value) if *value >= 0 => Err(28),
        _ => Err(27),
    }
}

fn is_nan(operand: &Literal) -> Worked {
    match operand {
        Literal::Null => Ok(Literal::Null),
        Literal::Float(_) => Ok(Literal::Bool(operand.is_nan())),
        _ => Err(27),
    }
}

fn unary(operator: Operator, operand: &Literal) -> Worked {
    match (operator, operand) {
        (_, Literal::Null) => Ok(Literal::Null),
        (Operator::Not, Literal::Bool(value)) => Ok(Literal::Bool(!value)),
        (Operator::Ident, Literal::Int(value)) => Ok(Literal::Int(*value)),
        (Operator::Ident, Literal::Float(bits)) => Ok(float(f64::from_bits(*bits))),
        (Operator::Neg, Literal::Int(value)) => integer(value.checked_neg()),
        (Operator::Neg, Literal::Float(bits)) => Ok(float(-f64::from_bits(*bits))),
        (Operator::Fact, Literal::Int(value)) if *value >= 0 => {
            // 21! passes the integers' end, so a larger factorial does too.
            integer((1..=(*value).min(21)).try_fold(1i64, |product, i| product.checked_mul(i)))
        }
        _ => Err(27),
    }
}

fn binary(operator: Operator, left: &Literal, right: &Literal) -> Worked {
    match operator {
        Operator::And => logic(left, right, false),
        Operator::Or => logic(left, right, true),
        Operator::Eq | Operator::Ne | Operator::Gt | Operator::Ge | Operator::Lt | Operator::Le => {
            compare(operator, left, right)
        }
        Operator::Like => match (left, right) {
            (Literal::Text(_), Literal::Text(_)) => Err(28),
            (Literal::Null | Literal::Text(_), Literal::Null | Literal::Text(_)) => Ok(Literal::Null),
            _ => Err(27),
        },
        _ => arithmetic(operator, left, right),
    }
}

/// AND and OR: `decides` is the value that decides, whatever the other side is.
fn logic(left: &Literal, right: &Literal, decides: bool) -> Worked {
    use Literal::{Bool, Null};
    match (left, right) {
        (Bool(left), Bool(right)) if decides => Ok(Bool(*left || *right)),
        (Bool(left), Bool(right)) => Ok(Bool(*left && *right)),
        (Bool(value), Null) | (Null, Bool(value)) if *value == decides => Ok(Bool(decides)),
        (Bool(_) | Null, Bool(_) | Null) => Ok(Null),
        _ => Err(27),
    }
}

fn compare(operator: Operator, left: &Literal, right: &Literal) -> Worked {
    use Literal::{Bool, Int, Null, Text};
    use std::cmp::Ordering::{Equal, Greater, Less};
    let order = match (left, right) {
        (Null, _) | (_, Null) => return Ok(Null),
        (Bool(left), Bool(right)) => Some(left.cmp(right)),
        (Text(left), Text(right)) => Some(left.cmp(right)),
        (Int(left), Int(right)) => Some(left.cmp(right)),
        _ => {
            let (left, right) = (number(left).ok_or(27)?, number(right).ok_or(27)?);
            left.partial_cmp(&right)
        }
    };
    Ok(Bool(match operator {
        Operator::Eq => order == Some(Equal),
        Operator::Ne => order != Some(Equal),
        Operator::Gt => order == Some(Greater),
        Operator::Ge => matches!(order, Some(Greater | Equal)),
        Operator::Lt => order == Some(Less),
        Operator::Le => matches!(order, Some(Less | Equal)),
        _ => unreachable!("not a comparison"),
    }))
}

/// A number as a float.
fn number(value: &Literal) -> Option<f64> {
    match value {
        Literal::Int(value) => Some(*value as f64),
        Literal::Float(bits) => Some(f64::from_bits(*bits)),
        _ => None,
    }
}

fn arithmetic(operator: Operator, left: &Literal, right: &Literal) -> Worked {
    use Literal::{Float, Int, Null};
    if !matches!((left, right), (Int(_) | Float(_) | Null, Int(_) | Float(_) | Null)) {
        return Err(27);
    }
    let (Some(l), Some(r)) = (number(left), number(right)) else {
        return Ok(Null);
    };
    if let (Int(left), Int(right)) = (left, right) {
        return integers(operator, *left, *right);
    }
    Ok(float(match operator {
        Operator::Add => l + r,
        Operator::Sub => l - r,
        Operator::Mul => l * r,
        Operator::Div => l / r,
        Operator::Rem => l % r,
        Operator::Pow => return Err(28),
        _ => unreachable!("not an operator of arithmetic"),
    }))
}

fn integers(operator: Operator, left: i64, right: i64) -> Worked {
    match operator {
        Operator::Add => integer(left.checked_add(right)),
        Operator::Sub => integer(left.checked_sub(right)),
        Operator::Mul => integer(left.checked_mul(right)),
        Operator::Div | Operator::Rem if right == 0 => Err(26),
        Operator::Div => integer(left.checked_div(right)),
        Operator::Rem => integer(left.checked_rem(right)),
        Operator::Pow if right < 0 => Err(28),
        Operator::Pow => integer(u32::try_from(right).ok().and_then(|right| left.checked_pow(right))),
        _ => unreachable!("not an operator of arithmetic"),
    }
}
