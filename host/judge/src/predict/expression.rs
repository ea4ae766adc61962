//! Building an expression's cells over a scope.

use texts::{Expr, ExprKind, Literal, Operator, Refusal};

use super::plan::{Cell, Plan};
use super::scope::Scope;

impl Plan {
    /// Builds the cells of an expression and gives its root's.
    pub fn expression(&mut self, expr: &Expr, scope: &Scope) -> Result<Cell, Refusal> {
        let refuse = |number| Refusal::in_statement(number, expr.line);
        if let Some(position) = scope.matched(expr) {
            return Ok(self.column(position));
        }
        match &expr.kind {
            ExprKind::Star => Err(refuse(12)),
            ExprKind::Literal(literal) => Ok(self.literal(literal)),
            ExprKind::Column { table, name } => {
                let position = scope.lookup(table.as_ref(), name).map_err(refuse)?;
                Ok(self.column(position))
            }
            ExprKind::Function { name, arguments } => match (name.as_slice(), arguments.as_slice()) {
                (b"sqrt", [argument]) => {
                    let argument = self.expression(argument, scope)?;
                    Ok(self.operation("sqrt", &[argument]))
                }
                _ => Err(refuse(13)),
            },
            ExprKind::Operator(operator, operands) => {
                let operands = operands
                    .iter()
                    .map(|operand| self.expression(operand, scope))
                    .collect::<Result<Vec<_>, _>>()?;
                Ok(self.operator(*operator, &operands))
            }
            ExprKind::Is(operand, literal) => {
                let operand = self.expression(operand, scope)?;
                if *literal != Literal::Null && !literal.is_nan() {
                    return Err(refuse(29));
                }
                Ok(self.is(operand, literal))
            }
        }
    }

    /// The cells of an operator; comparisons that have no cell of their own share their operands.
    fn operator(&mut self, operator: Operator, operands: &[Cell]) -> Cell {
        match operator {
            Operator::Ge | Operator::Le => {
                let strict = if operator == Operator::Ge { "gt" } else { "lt" };
                let strict = self.operation(strict, operands);
                let equal = self.operation("eq", operands);
                self.operation("or", &[strict, equal])
            }
            Operator::Ne => {
                let equal = self.operation("eq", operands);
                self.operation("not", &[equal])
            }
            _ => self.operation(operator.word(), operands),
        }
    }
}
