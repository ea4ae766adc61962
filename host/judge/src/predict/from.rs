//! The FROM clause.

use texts::limits::SCOPE_COLUMNS;
use texts::{From, JoinKind, Name, Refusal, Table};

use super::plan::{Fields, Node, Plan};
use super::scope::Scope;

/// The table of a name, or refusal 5 at the record that names it.
pub fn table<'a>(tables: &'a [Table], name: &Name, line: usize) -> Result<&'a Table, Refusal> {
    tables.iter().find(|table| table.name == *name).ok_or(Refusal::in_statement(5, line))
}

impl Plan {
    /// Builds the FROM items, each joined to those before it. None where there are no items.
    pub fn sources(
        &mut self,
        tables: &[Table],
        items: &[From],
        scope: &mut Scope,
    ) -> Result<Option<Node>, Refusal> {
        let mut node = None;
        for item in items {
            let right = self.source(tables, item, scope)?;
            node = Some(match node {
                None => right,
                Some(left) => self.join(left, right, "inner", None),
            });
        }
        Ok(node)
    }

    /// Builds a FROM item in a scope of its own and merges that into the scope around it.
    fn source(&mut self, tables: &[Table], item: &From, around: &mut Scope) -> Result<Node, Refusal> {
        let (line, node, scope) = match item {
            From::Table { line, name, alias } => {
                let table = table(tables, name, *line)?;
                let mut fields = Fields::new("scan");
                fields.bytes(name);
                fields.alias(alias.as_ref());
                let scope = Scope::of_table(table, alias.as_ref().unwrap_or(name));
                (*line, self.node(fields), scope)
            }
            From::Join { line, kind, left, right, predicate } => {
                let swapped = *kind == JoinKind::Right;
                let (first, second) = if swapped { (right, left) } else { (left, right) };
                let mut scope = Scope::default();
                let left = self.source(tables, first, &mut scope)?;
                let width = scope.columns.len();
                let right = self.source(tables, second, &mut scope)?;
                let predicate = match predicate {
                    Some(predicate) => Some(self.expression(predicate, &scope)?),
                    None => None,
                };
                let outer = matches!(kind, JoinKind::Left | JoinKind::Right);
                let mut node = self.join(left, right, if outer { "outer" } else { "inner" }, predicate);
                if swapped {
                    node = self.swap(node, width, scope.columns.len() - width);
                    scope.columns.rotate_left(width);
                }
                (*line, node, scope)
            }
        };
        if around.clashes(&scope) {
            return Err(Refusal::in_statement(6, line));
        }
        if around.columns.len() + scope.columns.len() > SCOPE_COLUMNS {
            return Err(Refusal::in_statement(3, line));
        }
        around.merge(scope);
        Ok(node)
    }

    fn join(&mut self, left: Node, right: Node, kind: &str, predicate: Option<usize>) -> Node {
        let mut fields = Fields::new("join");
        fields.number(left);
        fields.number(right);
        fields.word(kind);
        predicate.into_iter().for_each(|cell| fields.number(cell));
        self.node(fields)
    }

    /// Moves the first `left` columns of a node behind the `right` others.
    fn swap(&mut self, source: Node, left: usize, right: usize) -> Node {
        let mut fields = Fields::new("remap");
        fields.number(source);
        (right..right + left).for_each(|target| fields.number(target));
        (0..right).for_each(|target| fields.number(target));
        self.node(fields)
    }
}
