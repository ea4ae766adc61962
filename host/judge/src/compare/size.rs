//! The size of a statement's expressions with nothing shared, as the Rust builds them.

use texts::{Expr, ExprKind, Operator, Texts};

/// Statements whose expressions unfold to more cells than this are not put to the Rust.
const LARGEST: u64 = 1 << 17;

/// Whether a statement's expressions are too large to be put to the Rust.
pub fn is_too_large(texts: &Texts) -> bool {
    let expressions = texts.statement.expressions();
    expressions.into_iter().fold(0u64, |sum, expr| sum.saturating_add(unfolded(expr))) > LARGEST
}

/// The number of cells of an expression with nothing shared: each `ge` and `le` doubles its operands.
fn unfolded(expr: &Expr) -> u64 {
    let operands = expr.operands().iter().fold(0u64, |sum, e| sum.saturating_add(unfolded(e)));
    match expr.kind {
        ExprKind::Operator(Operator::Ge | Operator::Le, _) => operands.saturating_mul(2).saturating_add(3),
        ExprKind::Operator(Operator::Ne, _) => operands.saturating_add(2),
        _ => operands.saturating_add(1),
    }
}
