//! Where refusal 28 is due: at the first operator that the Rust works out and document 01 does not.

use oracle::Answer;
use texts::{Expr, ExprKind, Literal, Operator, Statement, Texts};

/// Whether document 01 refuses an operator with 28 on operands of these values: `sqrt` of a float or an integer of 0 or
/// more, `like` of two texts, and `pow` of numbers with a float or negative exponent or a float base.
pub fn is_refused(operator: &ExprKind, operands: &[Literal]) -> bool {
    use Literal::{Float, Int, Text};
    match (operator, operands) {
        (ExprKind::Function { name, .. }, [operand]) if name == b"sqrt" => {
            matches!(operand, Float(_) | Int(0..))
        }
        (ExprKind::Operator(Operator::Like, _), operands) => matches!(operands, [Text(_), Text(_)]),
        (ExprKind::Operator(Operator::Pow, _), operands) => {
            matches!(operands, [Float(_), Int(_) | Float(_)] | [Int(_), Float(_) | Int(..0)])
        }
        _ => false,
    }
}

/// The line of the operator at which 28 is due, if there is one. The operands' values are those that the Rust works out,
/// and the Rust meets the operator: with one in its place that it refuses, it refuses that.
pub fn refused_at(texts: &Texts) -> Option<usize> {
    let line = constants(&texts.statement).find_map(first_refused)?;
    let marked: Expr =
        ExprKind::Operator(Operator::Neg, vec![ExprKind::Literal(marker(texts)).into()]).into();
    let mut statement = texts.statement.clone();
    replace_constants(&mut statement, line, &marked);
    let expected = oracle::evaluate(&marked);
    match (oracle::answer(&Texts { tables: texts.tables.clone(), statement }), expected) {
        (Answer::Refused { number: 27, message }, Answer::Refused { message: expected, .. })
            if message == expected =>
        {
            Some(line)
        }
        _ => None,
    }
}

/// The expressions that are worked out, in their order.
fn constants(statement: &Statement) -> impl Iterator<Item = &Expr> {
    let (clauses, columns) = match statement {
        Statement::Select(select) => ([&select.offset, &select.limit], &[][..]),
        Statement::Create { columns, .. } => ([&None, &None], &columns[..]),
        _ => ([&None, &None], &[][..]),
    };
    let clauses = clauses.into_iter().flatten().map(|clause| &clause.expr);
    clauses.chain(columns.iter().filter_map(|column| column.default.as_ref()))
}

/// Puts an expression into the place of that of a line, among those that are worked out.
fn replace_constants(statement: &mut Statement, line: usize, by: &Expr) {
    match statement {
        Statement::Select(select) => {
            let clauses = [&mut select.offset, &mut select.limit].into_iter().flatten();
            clauses.for_each(|clause| replace(&mut clause.expr, line, by));
        }
        Statement::Create { columns, .. } => {
            columns
                .iter_mut()
                .flat_map(|column| &mut column.default)
                .for_each(|expr| replace(expr, line, by));
        }
        _ => {}
    }
}

/// The line of the first operator, operands before their user, whose operands' values call for 28.
fn first_refused(expr: &Expr) -> Option<usize> {
    expr.operands().iter().find_map(first_refused).or_else(|| {
        let may_be = match &expr.kind {
            ExprKind::Function { name, arguments } => name == b"sqrt" && arguments.len() == 1,
            ExprKind::Operator(operator, _) => matches!(operator, Operator::Like | Operator::Pow),
            _ => false,
        };
        let values = may_be.then(|| expr.operands().iter().map(value).collect::<Option<Vec<_>>>())??;
        is_refused(&expr.kind, &values).then_some(expr.line)
    })
}

/// The value that the Rust works out.
fn value(expr: &Expr) -> Option<Literal> {
    match oracle::evaluate(expr) {
        Answer::Given(value) => Some(value),
        _ => None,
    }
}

fn replace(expr: &mut Expr, line: usize, by: &Expr) {
    if expr.line == line {
        *expr = by.clone();
        return;
    }
    match &mut expr.kind {
        ExprKind::Function { arguments: operands, .. } | ExprKind::Operator(_, operands) => {
            operands.iter_mut().for_each(|operand| replace(operand, line, by));
        }
        ExprKind::Is(operand, _) => replace(operand, line, by),
        ExprKind::Star | ExprKind::Column { .. } | ExprKind::Literal(_) => {}
    }
}

/// A text that no literal of the statement is.
fn marker(texts: &Texts) -> Literal {
    let mut marker = b"the operator".to_vec();
    let expressions = texts.statement.expressions();
    while expressions.iter().any(|expr| has_text(expr, &marker)) {
        marker.push(b'.');
    }
    Literal::Text(marker)
}

fn has_text(expr: &Expr, text: &[u8]) -> bool {
    matches!(&expr.kind, ExprKind::Literal(Literal::Text(own)) if own == text)
        || expr.operands().iter().any(|operand| has_text(operand, text))
}
