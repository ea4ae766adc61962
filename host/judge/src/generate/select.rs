//! SELECT statements.

use texts::{Clause, Direction, Expr, ExprKind, From, Item, JoinKind, Name, OrderKey, Select, Statement};

use super::expression::column;
use super::{Maker, names};

/// The columns of FROM, as the expressions that name them.
struct Sources {
    from: Vec<From>,
    /// The names that tables are known by.
    tables: Vec<Name>,
    /// The columns as table and name.
    columns: Vec<(Name, Name)>,
}

impl Sources {
    /// Each column by its qualified name and, where no other has it, by its own name.
    fn leaves(&self) -> Vec<Expr> {
        leaves(&self.columns)
    }
}

fn leaves(columns: &[(Name, Name)]) -> Vec<Expr> {
    let mut leaves = Vec::new();
    for (table, name) in columns {
        leaves.push(column(Some(table), name));
        if columns.iter().filter(|(_, other)| other == name).count() == 1 {
            leaves.push(column(None, name));
            leaves.push(column(None, name));
        }
    }
    leaves
}

impl Maker {
    pub fn select(&mut self) -> Statement {
        let sources = self.sources();
        let leaves = if self.random.percent(10) { self.any_columns() } else { sources.leaves() };
        let filter = match self.random.between(0, 99) {
            0..35 => Some(self.expression(&leaves, 4)),
            35 => Some(self.chain(&leaves)),
            _ => None,
        };
        let select = if self.random.percent(45) {
            self.aggregated(sources, &leaves)
        } else {
            self.plain(sources, &leaves)
        };
        Statement::Select(Box::new(Select { filter, ..select }))
    }

    /// Columns of any names, whether or not FROM has them.
    fn any_columns(&mut self) -> Vec<Expr> {
        let mut columns = Vec::new();
        for _ in 0..4 {
            let table = names::table_name(&mut self.random);
            let name = names::column_name(&mut self.random);
            columns.push(column(self.random.percent(40).then_some(&table), &name));
        }
        columns
    }

    /// A SELECT with no aggregates but by mistake.
    fn plain(&mut self, sources: Sources, leaves: &[Expr]) -> Select {
        let items = self.items(leaves, 4);
        let mut later = leaves.to_vec();
        later.extend(self.aliases(&items));
        let having = if self.mistake() || self.random.percent(2) {
            let expr = self.expression(&later, 3);
            Some(Clause { line: 0, expr })
        } else {
            None
        };
        self.ordered(sources, items, vec![], having, &later)
    }

    /// A SELECT with groups or aggregates or both.
    fn aggregated(&mut self, sources: Sources, leaves: &[Expr]) -> Select {
        let count = self.random.weighted(&[(25, 0), (45, 1), (20, 2), (10, 3)]);
        let mut groups = Vec::new();
        for _ in 0..count {
            let depth = self.random.weighted(&[(75, 1), (25, 3)]);
            let group = if self.mistake() { self.aggregate(leaves) } else { self.expression(leaves, depth) };
            groups.push(group);
        }
        let mut good = groups.clone();
        good.extend((0..2).map(|_| self.aggregate(leaves)));
        if self.mistake() {
            good.extend_from_slice(leaves);
        }
        let mut items = self.items(&good, 3);
        if self.random.percent(8) {
            items.insert(0, Item { line: 0, expr: ExprKind::Star.into(), alias: None });
        }
        let mut later = good;
        later.extend(self.aliases(&items));
        if self.random.percent(40) {
            later.extend((0..2).map(|_| self.aggregate(leaves)));
        }
        let having = if self.random.percent(40) {
            let expr = self.expression(&later, 3);
            Some(Clause { line: 0, expr })
        } else {
            None
        };
        self.ordered(sources, items, groups, having, &later)
    }

    /// The clauses behind HAVING.
    fn ordered(
        &mut self,
        sources: Sources,
        items: Vec<Item>,
        groups: Vec<Expr>,
        having: Option<Clause>,
        leaves: &[Expr],
    ) -> Select {
        let keys = self.random.weighted(&[(45, 0), (35, 1), (15, 2), (5, 3)]);
        let mut order = Vec::new();
        for _ in 0..keys {
            let depth = self.random.weighted(&[(65, 1), (35, 3)]);
            let expr = self.expression(leaves, depth);
            let direction = *self.random.pick(&[Direction::Ascending, Direction::Descending]);
            order.push(OrderKey { expr, direction });
        }
        let mut clause =
            |percent| self.random.percent(percent).then(|| Clause { line: 0, expr: self.row_number() });
        let (offset, limit) = (clause(18), clause(18));
        Select { items, from: sources.from, filter: None, groups, having, order, offset, limit }
    }

    fn items(&mut self, leaves: &[Expr], depth: usize) -> Vec<Item> {
        let count = self.random.weighted(&[(35, 1), (35, 2), (20, 3), (10, 5)]);
        let mut items = Vec::new();
        for _ in 0..count {
            let alias = self.random.percent(35).then(|| names::alias(&mut self.random));
            let item = if self.random.percent(14) {
                // A star, mostly plain.
                let alias = alias.filter(|_| self.random.percent(40));
                Item { line: 0, expr: ExprKind::Star.into(), alias }
            } else {
                let depth = if self.random.percent(60) { 1 } else { depth };
                Item { line: 0, expr: self.expression(leaves, depth), alias }
            };
            items.push(item);
        }
        items
    }

    /// The items' aliases as columns, most often those that are given once.
    fn aliases(&mut self, items: &[Item]) -> Vec<Expr> {
        let aliases: Vec<&Name> = items.iter().filter_map(|item| item.alias.as_ref()).collect();
        let often = self.random.percent(15);
        aliases
            .iter()
            .filter(|alias| often || aliases.iter().filter(|other| other == alias).count() == 1)
            .map(|alias| column(None, alias))
            .collect()
    }

    fn sources(&mut self) -> Sources {
        let mut sources = Sources { from: vec![], tables: vec![], columns: vec![] };
        let count = if self.tables.is_empty() {
            0
        } else {
            self.random.weighted(&[(8, 0), (62, 1), (20, 2), (7, 3), (3, 4)])
        };
        for _ in 0..count {
            let depth = self.random.weighted(&[(55, 0), (25, 1), (14, 2), (6, 3)]);
            let from = self.source(depth, &mut sources);
            sources.from.push(from);
        }
        sources
    }

    /// A table or a join of at most some depth. Its names are added to the sources.
    fn source(&mut self, depth: usize, sources: &mut Sources) -> From {
        if depth == 0 {
            return self.table_source(sources);
        }
        let start = sources.columns.len();
        let side = |maker: &mut Maker| maker.random.between(0, depth - 1);
        let (left, right) = (side(self), side(self));
        let left = Box::new(self.source(left, sources));
        let right = Box::new(self.source(right, sources));
        let kind = *self.random.pick(&JoinKind::ALL);
        let on = if kind == JoinKind::Cross { 15 } else { 85 };
        let predicate = self.random.percent(on).then(|| {
            let leaves = leaves(&sources.columns[start..]);
            self.expression(&leaves, 3)
        });
        From::Join { line: 0, kind, left, right, predicate }
    }

    fn table_source(&mut self, sources: &mut Sources) -> From {
        let table = self.random.pick(&self.tables).clone();
        let name = if self.mistake() { names::table_name(&mut self.random) } else { table.name };
        let mut alias = self.random.percent(35).then(|| names::alias(&mut self.random));
        // A name that is held already is refused: mostly another is taken.
        while sources.tables.contains(alias.as_ref().unwrap_or(&name)) && !self.random.percent(4) {
            alias = Some(names::alias(&mut self.random));
        }
        let known = alias.as_ref().unwrap_or(&name).clone();
        sources.columns.extend(table.columns.into_iter().map(|column| (known.clone(), column.name)));
        sources.tables.push(known);
        From::Table { line: 0, name, alias }
    }
}
