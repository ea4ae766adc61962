//! The columns that an expression can name.

use texts::{Expr, ExprKind, Item, Name, Table};

#[derive(Clone, Debug, PartialEq)]
pub enum Label {
    None,
    Unqualified(Name),
    Qualified(Name, Name),
}

impl Label {
    fn name(&self) -> Option<&Name> {
        match self {
            Label::None => None,
            Label::Unqualified(name) | Label::Qualified(_, name) => Some(name),
        }
    }
}

#[derive(Default)]
pub struct Scope {
    pub columns: Vec<Label>,
    pub tables: Vec<Name>,
    /// Expressions that stand for a column. The first of equals counts.
    pub matches: Vec<(Expr, usize)>,
    /// The positions of hidden columns.
    pub hidden: Vec<usize>,
}

impl Scope {
    /// The scope of one table under a name.
    pub fn of_table(table: &Table, name: &Name) -> Self {
        let label = |column: &texts::Column| Label::Qualified(name.clone(), column.name.clone());
        Scope {
            columns: table.columns.iter().map(label).collect(),
            tables: vec![name.clone()],
            ..Scope::default()
        }
    }

    /// A scope of no columns that knows the same tables.
    pub fn spawn(&self) -> Self {
        Scope { tables: self.tables.clone(), ..Scope::default() }
    }

    /// The position of a column, or the number of the refusal.
    pub fn lookup(&self, table: Option<&Name>, name: &Name) -> Result<usize, u8> {
        if self.columns.is_empty() {
            return Err(10);
        }
        match table {
            Some(table) => {
                if !self.tables.contains(table) {
                    return Err(7);
                }
                let label = Label::Qualified(table.clone(), name.clone());
                if let Some(position) = self.columns.iter().rposition(|column| *column == label) {
                    return Ok(position);
                }
            }
            None => {
                let mut found = (0..self.columns.len()).filter(|i| self.columns[*i].name() == Some(name));
                if let Some(position) = found.next() {
                    return if found.next().is_some() { Err(9) } else { Ok(position) };
                }
            }
        }
        Err(if self.matches.is_empty() { 8 } else { 11 })
    }

    /// The label of the column that an expression names, if it names one.
    fn label_of(&self, expr: &Expr) -> Label {
        if let ExprKind::Column { table, name } = &expr.kind
            && let Ok(position) = self.lookup(table.as_ref(), name)
        {
            return self.columns[position].clone();
        }
        Label::None
    }

    /// The column that an expression stands for, if it is a match.
    pub fn matched(&self, expr: &Expr) -> Option<usize> {
        self.matches.iter().find(|(known, _)| known == expr).map(|(_, position)| *position)
    }

    /// Adds a group or aggregate expression as a column. False if an equal one was added before.
    pub fn add_match(&mut self, expr: &Expr, parent: &Scope) -> bool {
        if self.matched(expr).is_some() {
            return false;
        }
        self.columns.push(parent.label_of(expr));
        self.matches.push((expr.clone(), self.columns.len() - 1));
        true
    }

    /// Adds a hidden column for a column of the parent.
    pub fn add_hidden(&mut self, parent: &Scope, position: usize) {
        self.columns.push(parent.columns[position].clone());
        let own = self.columns.len() - 1;
        for (expr, of) in &parent.matches {
            if *of == position {
                self.matches.push((expr.clone(), own));
            }
        }
        self.hidden.push(own);
    }

    /// Whether a table of the other scope has a name that this one holds already.
    pub fn clashes(&self, other: &Scope) -> bool {
        other.tables.iter().any(|table| self.tables.contains(table))
    }

    /// Appends the tables and columns of another scope of FROM.
    pub fn merge(&mut self, other: Scope) {
        self.tables.extend(other.tables);
        self.columns.extend(other.columns);
    }

    /// The scope over a projection of items.
    pub fn project(&self, items: &[Item]) -> Self {
        let mut child = self.spawn();
        for (position, item) in items.iter().enumerate() {
            child.columns.push(match &item.alias {
                Some(alias) => Label::Unqualified(alias.clone()),
                None => self.label_of(&item.expr),
            });
            if !self.matches.is_empty() {
                child.matches.push((item.expr.clone(), position));
            }
        }
        child
    }
}
