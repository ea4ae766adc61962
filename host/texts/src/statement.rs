use crate::{DataType, Expr, Name};

/// A statement. A `line` is that of the record which begins the part.
#[derive(Clone, Debug, PartialEq)]
pub enum Statement {
    Select(Box<Select>),
    Delete { line: usize, table: Name, filter: Option<Expr> },
    Insert { line: usize, table: Name, names: Option<Vec<(usize, Name)>>, rows: Vec<Row> },
    Update { line: usize, table: Name, sets: Vec<Set>, filter: Option<Expr> },
    Create { line: usize, name: Name, columns: Vec<NewColumn> },
    Drop { name: Name, if_exists: bool },
    Other { line: usize },
}

impl Statement {
    /// Its expressions, from clause to clause.
    pub fn expressions(&self) -> Vec<&Expr> {
        match self {
            Statement::Select(select) => select.expressions(),
            Statement::Delete { filter, .. } => filter.iter().collect(),
            Statement::Insert { rows, .. } => rows.iter().flatten().collect(),
            Statement::Update { sets, filter, .. } => {
                sets.iter().flat_map(|set| &set.expr).chain(filter).collect()
            }
            Statement::Create { columns, .. } => columns.iter().flat_map(|column| &column.default).collect(),
            Statement::Drop { .. } | Statement::Other { .. } => vec![],
        }
    }
}

/// The expressions of an inserted row.
pub type Row = Vec<Expr>;

#[derive(Clone, Debug, PartialEq)]
pub struct Select {
    pub items: Vec<Item>,
    pub from: Vec<From>,
    pub filter: Option<Expr>,
    pub groups: Vec<Expr>,
    pub having: Option<Clause>,
    pub order: Vec<OrderKey>,
    pub offset: Option<Clause>,
    pub limit: Option<Clause>,
}

impl Select {
    fn expressions(&self) -> Vec<&Expr> {
        let mut found: Vec<&Expr> = self.items.iter().map(|item| &item.expr).collect();
        self.from.iter().for_each(|from| from.predicates(&mut found));
        found.extend(&self.filter);
        found.extend(&self.groups);
        found.extend(self.order.iter().map(|key| &key.expr));
        for clause in [&self.having, &self.offset, &self.limit] {
            found.extend(clause.iter().map(|clause| &clause.expr));
        }
        found
    }
}

#[derive(Clone, Debug, PartialEq)]
pub struct Item {
    pub line: usize,
    pub expr: Expr,
    pub alias: Option<Name>,
}

/// A clause of one expression, with the line of the clause's own record.
#[derive(Clone, Debug, PartialEq)]
pub struct Clause {
    pub line: usize,
    pub expr: Expr,
}

#[derive(Clone, Debug, PartialEq)]
pub struct OrderKey {
    pub expr: Expr,
    pub direction: Direction,
}

#[derive(Clone, Copy, Debug, PartialEq, Eq)]
pub enum Direction {
    Ascending,
    Descending,
}

impl Direction {
    /// The word of the texts for the direction.
    pub fn word(self) -> &'static str {
        match self {
            Direction::Ascending => "asc",
            Direction::Descending => "desc",
        }
    }
}

#[derive(Clone, Debug, PartialEq)]
pub enum From {
    Table { line: usize, name: Name, alias: Option<Name> },
    Join { line: usize, kind: JoinKind, left: Box<From>, right: Box<From>, predicate: Option<Expr> },
}

impl From {
    fn predicates<'a>(&'a self, found: &mut Vec<&'a Expr>) {
        if let From::Join { left, right, predicate, .. } = self {
            left.predicates(found);
            right.predicates(found);
            found.extend(predicate);
        }
    }
}

#[derive(Clone, Copy, Debug, PartialEq, Eq)]
pub enum JoinKind {
    Cross,
    Inner,
    Left,
    Right,
}

impl JoinKind {
    pub const ALL: [JoinKind; 4] = [JoinKind::Cross, JoinKind::Inner, JoinKind::Left, JoinKind::Right];

    /// The word of the texts for the kind.
    pub fn word(self) -> &'static str {
        match self {
            JoinKind::Cross => "cross",
            JoinKind::Inner => "inner",
            JoinKind::Left => "left",
            JoinKind::Right => "right",
        }
    }

    pub(crate) fn of(word: &[u8]) -> Option<Self> {
        Self::ALL.into_iter().find(|kind| kind.word().as_bytes() == word)
    }
}

#[derive(Clone, Debug, PartialEq)]
pub struct Set {
    pub line: usize,
    pub name: Name,
    /// None for the column's default.
    pub expr: Option<Expr>,
}

/// A column of a `create`.
#[derive(Clone, Debug, PartialEq)]
pub struct NewColumn {
    pub line: usize,
    pub name: Name,
    pub datatype: DataType,
    pub key: bool,
    pub nullable: Option<bool>,
    pub unique: bool,
    pub index: bool,
    pub default: Option<Expr>,
    pub reference: Option<Name>,
}
