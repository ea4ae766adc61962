use super::records::{Records, count, literal, name};
use crate::limits::{DEPTH, EXPRESSIONS};
use crate::{Expr, ExprKind, Literal, Name, Operator, Refusal};

/// Reads the expressions of a statement, counting their records.
#[derive(Default)]
pub struct Expressions {
    records: usize,
}

/// What an expression record says, before its operands are read.
enum Head {
    Leaf(ExprKind),
    Function(Name, usize),
    Operator(Operator),
    Is,
}

impl Expressions {
    pub fn read(&mut self, records: &mut Records) -> Result<Expr, Refusal> {
        self.read_at(records, 1)
    }

    /// Reads an expression whose root stands at a depth (a statement's expression stands at 1).
    fn read_at(&mut self, records: &mut Records, depth: usize) -> Result<Expr, Refusal> {
        let record = records.take()?;
        let line = record.line;
        let head = head(&record.fields).ok_or_else(|| records.wrong(line))?;
        self.records += 1;
        records.limit(self.records, EXPRESSIONS, line)?;
        records.limit(depth, DEPTH, line)?;
        let kind = match head {
            Head::Leaf(kind) => kind,
            Head::Function(name, count) => {
                let arguments = self.read_several(records, count, depth + 1)?;
                ExprKind::Function { name, arguments }
            }
            Head::Operator(operator) => {
                ExprKind::Operator(operator, self.read_several(records, operator.arity(), depth + 1)?)
            }
            Head::Is => {
                let operand = self.read_at(records, depth + 1)?;
                let literal: Literal = records.take_literal()?;
                ExprKind::Is(Box::new(operand), literal)
            }
        };
        Ok(Expr { line, kind })
    }

    fn read_several(
        &mut self,
        records: &mut Records,
        count: usize,
        depth: usize,
    ) -> Result<Vec<Expr>, Refusal> {
        let mut exprs = Vec::new();
        while exprs.len() < count {
            exprs.push(self.read_at(records, depth)?);
        }
        Ok(exprs)
    }
}

fn head(fields: &[&[u8]]) -> Option<Head> {
    Some(match fields {
        [b"star"] => Head::Leaf(ExprKind::Star),
        [b"col", column] => Head::Leaf(ExprKind::Column { table: None, name: name(column)? }),
        [b"col", table, column] => {
            Head::Leaf(ExprKind::Column { table: Some(name(table)?), name: name(column)? })
        }
        [b"fn", function, arguments] => Head::Function(name(function)?, count(arguments)?),
        [b"op", b"is"] => Head::Is,
        [b"op", operator] => Head::Operator(Operator::of(operator)?),
        _ => Head::Leaf(ExprKind::Literal(literal(fields)?)),
    })
}
