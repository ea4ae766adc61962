//! SELECT.

use texts::limits::SCOPE_COLUMNS;
use texts::{Clause, Expr, ExprKind, Item, Literal, Refusal, Select, Table};

use super::aggregate::aggregates;
use super::constant::constant;
use super::plan::{Fields, Node, Plan};
use super::scope::{Label, Scope};
use super::walk::walk;

/// The printed plan of a SELECT.
pub fn plan(tables: &[Table], select: &Select) -> Result<Vec<u8>, Refusal> {
    let mut plan = Plan::default();
    let mut scope = Scope::default();
    let mut node = match plan.sources(tables, &select.from, &mut scope)? {
        Some(node) => node,
        None => plan.empty_row(),
    };
    let items = expand(select, &scope)?;
    if let Some(filter) = &select.filter {
        node = plan.filter(node, filter, &scope)?;
    }
    let aggregates = aggregates(&items, select);
    if !select.groups.is_empty() || !aggregates.is_empty() {
        node = plan.aggregate(node, &select.groups, &aggregates, &mut scope)?;
    }
    if !matches!(items.as_slice(), [item] if is_plain_star(item)) {
        node = plan.project(node, &items, select, &mut scope)?;
    }
    if let Some(having) = &select.having {
        if scope.matches.is_empty() {
            return Err(Refusal::in_statement(17, having.line));
        }
        node = plan.filter(node, &having.expr, &scope)?;
    }
    if !select.order.is_empty() {
        node = plan.order(node, select, &scope)?;
    }
    if let Some(offset) = &select.offset {
        node = plan.row_number(node, "offset", offset, 18)?;
    }
    if let Some(limit) = &select.limit {
        node = plan.row_number(node, "limit", limit, 19)?;
    }
    if !scope.hidden.is_empty() {
        plan.drop_hidden(node, &scope);
    }
    Ok(plan.print("select"))
}

fn is_plain_star(item: &Item) -> bool {
    item.expr.kind == ExprKind::Star && item.alias.is_none()
}

/// The items, with each star replaced by the columns where a plain star stands beside another item or a group.
fn expand(select: &Select, scope: &Scope) -> Result<Vec<Item>, Refusal> {
    let Some(star) = select.items.iter().find(|item| is_plain_star(item)) else {
        return Ok(select.items.clone());
    };
    if scope.columns.is_empty() {
        return Err(Refusal::in_statement(16, star.expr.line));
    }
    if select.items.len() == 1 && select.groups.is_empty() {
        return Ok(select.items.clone());
    }
    let mut items = Vec::new();
    for item in &select.items {
        let line = if item.expr.kind == ExprKind::Star {
            items.extend(scope.columns.iter().map(|label| starred(label, item)));
            item.expr.line
        } else {
            items.push(item.clone());
            item.line
        };
        if items.len() > SCOPE_COLUMNS {
            return Err(Refusal::in_statement(3, line));
        }
    }
    Ok(items)
}

/// The item that a star gives for a column.
fn starred(label: &Label, star: &Item) -> Item {
    let Label::Qualified(table, name) = label else {
        unreachable!("a column of FROM is qualified");
    };
    let kind = ExprKind::Column { table: Some(table.clone()), name: name.clone() };
    Item { line: star.line, expr: Expr { line: star.expr.line, kind }, alias: None }
}

/// The columns of the parent that HAVING and ORDER BY need beside the items, each with the line that calls for it.
/// They are added to the child.
fn hidden(select: &Select, parent: &Scope, child: &mut Scope) -> Vec<(usize, usize)> {
    let mut hidden = Vec::new();
    let having = select.having.iter().map(|clause| &clause.expr);
    for root in having.chain(select.order.iter().map(|key| &key.expr)) {
        walk(root, &mut |expr| {
            let position = match (&expr.kind, parent.matched(expr)) {
                (_, Some(position)) if child.matched(expr).is_none() => Some(position),
                (ExprKind::Column { table, name }, _) if child.lookup(table.as_ref(), name).is_err() => {
                    parent.lookup(table.as_ref(), name).ok()
                }
                _ => None,
            };
            if let Some(position) = position {
                child.add_hidden(parent, position);
                hidden.push((position, expr.line));
            }
            true
        });
    }
    hidden
}

impl Plan {
    /// The source of a SELECT with no FROM.
    fn empty_row(&mut self) -> Node {
        let mut fields = Fields::new("values");
        fields.word("row");
        fields.number(0);
        self.node(fields)
    }

    fn filter(&mut self, source: Node, expr: &Expr, scope: &Scope) -> Result<Node, Refusal> {
        let cell = self.expression(expr, scope)?;
        let mut fields = Fields::new("filter");
        fields.number(source);
        fields.number(cell);
        Ok(self.node(fields))
    }

    /// Builds the items and hidden columns, and replaces the scope by theirs.
    fn project(
        &mut self,
        source: Node,
        items: &[Item],
        select: &Select,
        scope: &mut Scope,
    ) -> Result<Node, Refusal> {
        let mut child = scope.project(items);
        let mut fields = Fields::new("project");
        fields.number(source);
        for item in items {
            fields.number(self.expression(&item.expr, scope)?);
            fields.alias(item.alias.as_ref());
        }
        for (i, (position, line)) in hidden(select, scope, &mut child).into_iter().enumerate() {
            if items.len() + i + 1 > SCOPE_COLUMNS {
                return Err(Refusal::in_statement(3, line));
            }
            fields.number(self.column(position));
        }
        *scope = child;
        Ok(self.node(fields))
    }

    fn order(&mut self, source: Node, select: &Select, scope: &Scope) -> Result<Node, Refusal> {
        let mut fields = Fields::new("order");
        fields.number(source);
        for key in &select.order {
            fields.number(self.expression(&key.expr, scope)?);
            fields.word(key.direction.word());
        }
        Ok(self.node(fields))
    }

    /// OFFSET or LIMIT: a constant that is an integer of 0 or more, else the clause's own refusal.
    fn row_number(&mut self, source: Node, kind: &str, clause: &Clause, number: u8) -> Result<Node, Refusal> {
        match constant(&clause.expr)? {
            Literal::Int(value) if value >= 0 => {
                let mut fields = Fields::new(kind);
                fields.number(source);
                fields.word(&value.to_string());
                Ok(self.node(fields))
            }
            _ => Err(Refusal::in_statement(number, clause.line)),
        }
    }

    fn drop_hidden(&mut self, source: Node, scope: &Scope) -> Node {
        let mut fields = Fields::new("remap");
        fields.number(source);
        let mut target = 0;
        for position in 0..scope.columns.len() {
            if scope.hidden.contains(&position) {
                fields.word("-");
            } else {
                fields.number(target);
                target += 1;
            }
        }
        self.node(fields)
    }
}
