//! The statements that change rows or drop a table, and those that are not planned.

use texts::{Expr, Name, Set, Statement, Table};

use super::expression::column;
use super::{Maker, names};

impl Maker {
    /// A table of the catalog; by mistake, or where there is none, a name that no table may have.
    fn target(&mut self) -> (Name, Option<Table>) {
        if self.tables.is_empty() || self.mistake() {
            return (names::table_name(&mut self.random), None);
        }
        let table = self.random.pick(&self.tables).clone();
        (table.name.clone(), Some(table))
    }

    /// The columns of a table as expressions: by qualified name, and by name where it is the only one.
    fn columns(&self, table: &Option<Table>) -> Vec<Expr> {
        let Some(table) = table else {
            return vec![];
        };
        let mut leaves = Vec::new();
        for known in &table.columns {
            leaves.push(column(Some(&table.name), &known.name));
            if table.columns.iter().filter(|other| other.name == known.name).count() == 1 {
                leaves.push(column(None, &known.name));
            }
        }
        leaves
    }

    pub fn delete(&mut self) -> Statement {
        let (name, table) = self.target();
        let leaves = self.columns(&table);
        let filter = self.random.percent(80).then(|| self.expression(&leaves, 4));
        Statement::Delete { line: 0, table: name, filter }
    }

    pub fn update(&mut self) -> Statement {
        let (name, table) = self.target();
        let leaves = self.columns(&table);
        let filter = self.random.percent(50).then(|| self.expression(&leaves, 3));
        let mut known: Vec<Name> = table
            .iter()
            .flat_map(|table| &table.columns)
            .filter(|_| self.random.percent(60))
            .map(|column| column.name.clone())
            .collect();
        if known.is_empty() || self.mistake() {
            known.push(names::column_name(&mut self.random));
        }
        known.sort();
        known.dedup();
        let mut sets = Vec::new();
        for name in known {
            // A column without a default is refused: it is mostly given an expression.
            let has_default = table
                .iter()
                .flat_map(|table| &table.columns)
                .any(|column| column.name == name && column.default.is_some());
            let default = self.random.percent(if has_default { 35 } else { 8 });
            let expr = if default { None } else { Some(self.expression(&leaves, 3)) };
            sets.push(Set { line: 0, name, expr });
        }
        Statement::Update { line: 0, table: name, sets, filter }
    }

    pub fn insert(&mut self) -> Statement {
        let (name, table) = self.target();
        let width = self.random.between(0, 4);
        let names = self.random.percent(55).then(|| self.inserted_names(&table));
        let count = self.random.weighted(&[(70, 1), (20, 2), (10, 4)]);
        let mut rows = Vec::new();
        for _ in 0..count {
            let width = if self.random.percent(85) { width } else { self.random.between(0, 4) };
            rows.push((0..width).map(|_| self.expression(&[], 3)).collect());
        }
        Statement::Insert { line: 0, table: name, names, rows }
    }

    fn inserted_names(&mut self, table: &Option<Table>) -> Vec<(usize, Name)> {
        let mut known: Vec<Name> =
            table.iter().flat_map(|table| &table.columns).map(|column| column.name.clone()).collect();
        if !self.random.percent(20) {
            known.sort();
            known.dedup();
        }
        self.random.shuffle(&mut known);
        let kept = self.random.between(0, known.len());
        known.truncate(kept);
        if self.random.percent(10) || self.mistake() {
            known.push(names::column_name(&mut self.random));
        }
        known.into_iter().map(|name| (0, name)).collect()
    }

    pub fn drop(&mut self) -> Statement {
        let name = names::table_name(&mut self.random);
        Statement::Drop { name, if_exists: self.random.percent(50) }
    }

    pub fn other(&mut self) -> Statement {
        Statement::Other { line: 0 }
    }
}
