//! Walks over an expression, as document 01 gives them.

use texts::{Expr, ExprKind};

/// Visits an expression and its operands until a visit answers false, which is then the walk's answer. A function's
/// arguments are visited only until the walk of one answers true; the walk of a function of none answers false.
pub fn walk<'a>(expr: &'a Expr, visit: &mut impl FnMut(&'a Expr) -> bool) -> bool {
    if !visit(expr) {
        return false;
    }
    match &expr.kind {
        ExprKind::Function { arguments, .. } => arguments.iter().any(|argument| walk(argument, visit)),
        _ => expr.operands().iter().all(|operand| walk(operand, visit)),
    }
}

/// Whether a walk that stops at a match answers false.
pub fn contains(expr: &Expr, is_match: impl Fn(&Expr) -> bool) -> bool {
    !walk(expr, &mut |expr| !is_match(expr))
}

/// The matches from left to right, none inside another.
pub fn collect<'a>(expr: &'a Expr, is_match: &impl Fn(&Expr) -> bool, found: &mut Vec<&'a Expr>) {
    if is_match(expr) {
        found.push(expr);
    } else {
        expr.operands().iter().for_each(|operand| collect(operand, is_match, found));
    }
}
