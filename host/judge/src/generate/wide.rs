//! SELECTs whose groups and aggregates come near the most columns that a scope may have.

use texts::limits::{EXPRESSIONS, GROUPS, ITEMS, ORDER_KEYS, SCOPE_COLUMNS};
use texts::{Clause, Direction, Expr, From, Item, Literal, Operator, OrderKey, Select, Statement};

use super::Maker;
use super::expression::{AGGREGATES, function, literal, operator};
use super::known::{Known, Lines, planned};

/// As many groups and aggregates as a scope may have columns, planned, with as many expressions as may stand: two
/// aggregates in each item and one in each order key.
pub fn most_aggregates() -> Known {
    let mut statement = Lines::of(&["select"]);
    let mut value = 0;
    let mut aggregate = |statement: &mut Lines| {
        statement.push("fn sum 1");
        statement.push(&format!("int {value}"));
        value += 1;
    };
    for _ in 0..ITEMS {
        statement.push("item");
        statement.push("op add");
        aggregate(&mut statement);
        aggregate(&mut statement);
    }
    for group in 0..GROUPS {
        statement.push("group");
        statement.push(&format!("float {group:016x}"));
    }
    for _ in 0..ORDER_KEYS {
        statement.push("order asc");
        aggregate(&mut statement);
    }
    planned("groups and aggregates that are planned", vec![], statement.end())
}

impl Maker {
    /// Groups and aggregates, some over the columns of a table, which are some columns more or fewer than may stand.
    pub fn wide(&mut self) -> Statement {
        let leaves = self.wide_leaves();
        let groups = if self.random.percent(60) { GROUPS } else { self.random.between(GROUPS / 2, GROUPS) };
        let groups: Vec<Expr> = (0..groups).map(|i| self.wide_leaf(&leaves, i)).collect();
        let over = self.random.percent(40);
        let most = if over { SCOPE_COLUMNS + 8 } else { SCOPE_COLUMNS };
        let aggregates =
            most - groups.len() - if self.random.percent(50) { 0 } else { self.random.between(0, 12) };
        let aggregates: Vec<Expr> = (0..aggregates).map(|i| self.wide_aggregate(&leaves, i)).collect();
        let mut select = if over { in_function(aggregates) } else { self.spread(aggregates, groups.len()) };
        select.groups = groups;
        select.from = self.wide_from();
        Statement::Select(Box::new(select))
    }

    fn wide_from(&self) -> Vec<From> {
        let table = self.tables.first();
        table
            .map(|table| From::Table { line: 0, name: table.name.clone(), alias: None })
            .into_iter()
            .collect()
    }

    /// The columns of the only table in FROM, by their qualified names.
    fn wide_leaves(&self) -> Vec<Expr> {
        let table = self.tables.first();
        let columns =
            table.iter().flat_map(|table| table.columns.iter().map(|column| (&table.name, &column.name)));
        columns.map(|(table, name)| super::expression::column(Some(table), name)).collect()
    }

    /// A literal of its own, mostly; now and then a column, which may be another's equal.
    fn wide_leaf(&mut self, leaves: &[Expr], number: usize) -> Expr {
        match leaves {
            [_, ..] if self.random.percent(4) => self.random.pick(leaves).clone(),
            _ => literal(Literal::Int(number as i64)),
        }
    }

    fn wide_aggregate(&mut self, leaves: &[Expr], number: usize) -> Expr {
        let name = AGGREGATES[number % AGGREGATES.len()];
        let argument = self.wide_leaf(leaves, number);
        function(name, vec![argument])
    }

    /// The aggregates as items, order keys and HAVING, as many as the statement's expressions may be.
    fn spread(&mut self, mut aggregates: Vec<Expr>, groups: usize) -> Select {
        let mut select = empty();
        let mut cells = groups;
        let mut whole = |maker: &mut Maker, aggregates: &mut Vec<Expr>| {
            let one = aggregates.pop()?;
            let pair = maker.random.percent(70) && cells + 5 + 2 * aggregates.len() / 3 < EXPRESSIONS;
            let expr = match aggregates.pop() {
                Some(other) if pair => operator(Operator::Add, vec![one, other]),
                Some(other) => {
                    aggregates.push(other);
                    one
                }
                None => one,
            };
            cells += expr.cells();
            (cells <= EXPRESSIONS).then_some(expr)
        };
        for _ in 0..ITEMS {
            let Some(expr) = whole(self, &mut aggregates) else { break };
            select.items.push(Item { line: 0, expr, alias: None });
        }
        if self.random.percent(50) {
            select.having = whole(self, &mut aggregates).map(|expr| Clause { line: 0, expr });
        }
        for _ in 0..ORDER_KEYS {
            let Some(expr) = whole(self, &mut aggregates) else { break };
            select.order.push(OrderKey { expr, direction: Direction::Descending });
        }
        select
    }
}

/// The aggregates as the arguments of a function, which is refused with 13 where they are not too many.
fn in_function(aggregates: Vec<Expr>) -> Select {
    let expr = function("f", aggregates);
    Select { items: vec![Item { line: 0, expr, alias: None }], ..empty() }
}

fn empty() -> Select {
    Select {
        items: vec![],
        from: vec![],
        filter: None,
        groups: vec![],
        having: None,
        order: vec![],
        offset: None,
        limit: None,
    }
}
