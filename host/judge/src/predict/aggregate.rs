//! Groups and aggregates.

use texts::limits::SCOPE_COLUMNS;
use texts::{Expr, ExprKind, Item, Literal, Refusal, Select};

use super::plan::{Cell, Fields, Node, Plan};
use super::scope::Scope;
use super::walk::{collect, contains};

fn is_aggregate(expr: &Expr) -> bool {
    matches!(&expr.kind, ExprKind::Function { name, .. }
        if [b"avg".as_slice(), b"count", b"max", b"min", b"sum"].contains(&name.as_slice()))
}

/// The aggregates of items, HAVING and ORDER BY, from left to right.
pub fn aggregates<'a>(items: &'a [Item], select: &'a Select) -> Vec<&'a Expr> {
    let items = items.iter().map(|item| &item.expr);
    let having = select.having.iter().map(|clause| &clause.expr);
    let order = select.order.iter().map(|key| &key.expr);
    let mut found = Vec::new();
    items.chain(having).chain(order).for_each(|expr| collect(expr, &is_aggregate, &mut found));
    found
}

impl Plan {
    /// Builds the different groups and aggregates, and replaces the scope by theirs.
    pub fn aggregate(
        &mut self,
        source: Node,
        groups: &[Expr],
        aggregates: &[&Expr],
        scope: &mut Scope,
    ) -> Result<Node, Refusal> {
        let mut child = scope.spawn();
        let mut fields = Fields::new("aggregate");
        fields.number(source);
        let mut passed = None;
        let mut differs = |expr: &Expr| {
            let differs = child.add_match(expr, scope);
            if differs && child.columns.len() == SCOPE_COLUMNS + 1 {
                passed = Some(expr.line);
            }
            differs
        };
        let groups: Vec<&Expr> = groups.iter().filter(|group| differs(group)).collect();
        let aggregates: Vec<&Expr> =
            aggregates.iter().copied().filter(|aggregate| differs(aggregate)).collect();
        for group in groups {
            fields.number(self.expression(group, scope)?);
        }
        for aggregate in aggregates {
            let (name, cell) = self.aggregate_argument(aggregate, scope)?;
            fields.bytes(name);
            fields.number(cell);
        }
        if let Some(line) = passed {
            return Err(Refusal::in_statement(3, line));
        }
        *scope = child;
        Ok(self.node(fields))
    }

    /// Builds the argument of an aggregate and gives its name.
    fn aggregate_argument<'a>(
        &mut self,
        aggregate: &'a Expr,
        scope: &Scope,
    ) -> Result<(&'a [u8], Cell), Refusal> {
        let ExprKind::Function { name, arguments } = &aggregate.kind else {
            unreachable!("an aggregate is a function");
        };
        let [argument] = arguments.as_slice() else {
            return Err(Refusal::in_statement(14, aggregate.line));
        };
        if contains(argument, is_aggregate) {
            return Err(Refusal::in_statement(15, aggregate.line));
        }
        let cell = if name == b"count" && argument.kind == ExprKind::Star {
            self.literal(&Literal::Bool(true))
        } else {
            self.expression(argument, scope)?
        };
        Ok((name, cell))
    }
}
