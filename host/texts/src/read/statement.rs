use super::expression::Expressions;
use super::records::{Record, Records, count, name};
use crate::limits::{COLUMNS, FROM_TABLES, GROUPS, INSERTED_NAMES, ITEMS, ORDER_KEYS, ROWS, SETS};
use crate::{
    Clause, DataType, Direction, Expr, From, Item, JoinKind, Name, NewColumn, OrderKey, Refusal, Row, Select,
    Set, Statement, Text,
};

/// Reads a statement, to its `end` and the end of the text.
pub fn read(bytes: &[u8]) -> Result<Statement, Refusal> {
    let mut reader = Reader {
        records: Records::new(Text::Statement, bytes),
        expressions: Expressions::default(),
        tables: 0,
    };
    let statement = reader.statement()?;
    reader.records.take_word("end")?;
    if !reader.records.at_end() {
        return Err(reader.records.wrong(reader.records.line()));
    }
    Ok(statement)
}

struct Reader<'a> {
    records: Records<'a>,
    expressions: Expressions,
    /// The `from` records read so far.
    tables: usize,
}

/// A join whose right side is not read yet, and perhaps its left side.
struct OpenJoin {
    line: usize,
    kind: JoinKind,
    on: bool,
    left: Option<From>,
}

impl<'a> Reader<'a> {
    fn statement(&mut self) -> Result<Statement, Refusal> {
        let record = self.records.take()?;
        let line = record.line;
        match record.fields.as_slice() {
            [b"select"] => Ok(Statement::Select(Box::new(self.select()?))),
            [b"other"] => Ok(Statement::Other { line }),
            [b"drop", table, if_exists @ (b"yes" | b"no")] => {
                let name = self.fits(line, name(table))?;
                Ok(Statement::Drop { name, if_exists: *if_exists == b"yes" })
            }
            [b"delete", table] => {
                let table = self.fits(line, name(table))?;
                Ok(Statement::Delete { line, table, filter: self.filter()? })
            }
            [b"insert", table] => {
                let table = self.fits(line, name(table))?;
                let names = self.inserted_names()?;
                Ok(Statement::Insert { line, table, names, rows: self.rows()? })
            }
            [b"update", table] => {
                let table = self.fits(line, name(table))?;
                let sets = self.sets()?;
                Ok(Statement::Update { line, table, sets, filter: self.filter()? })
            }
            [b"create", table] => {
                let name = self.fits(line, name(table))?;
                Ok(Statement::Create { line, name, columns: self.new_columns()? })
            }
            _ => Err(self.records.wrong(line)),
        }
    }

    /// What a field says, or refusal 2 at its line.
    fn fits<T>(&self, line: usize, read: Option<T>) -> Result<T, Refusal> {
        read.ok_or_else(|| self.records.wrong(line))
    }

    fn expression(&mut self) -> Result<Expr, Refusal> {
        self.expressions.read(&mut self.records)
    }

    /// A clause of one field and one expression, where it stands.
    fn clause(&mut self, word: &str) -> Result<Option<Clause>, Refusal> {
        if !self.records.stands(word) {
            return Ok(None);
        }
        let line = self.records.take_word(word)?;
        Ok(Some(Clause { line, expr: self.expression()? }))
    }

    fn filter(&mut self) -> Result<Option<Expr>, Refusal> {
        Ok(self.clause("where")?.map(|clause| clause.expr))
    }

    fn select(&mut self) -> Result<Select, Refusal> {
        Ok(Select {
            items: self.items()?,
            from: self.sources()?,
            filter: self.filter()?,
            groups: self.groups()?,
            having: self.clause("having")?,
            order: self.order()?,
            offset: self.clause("offset")?,
            limit: self.clause("limit")?,
        })
    }

    fn items(&mut self) -> Result<Vec<Item>, Refusal> {
        let mut items = Vec::new();
        while items.is_empty() || self.records.stands("item") {
            let record = self.records.take()?;
            let line = record.line;
            let alias = match record.fields.as_slice() {
                [b"item"] => None,
                [b"item", alias] => Some(self.fits(line, name(alias))?),
                _ => return Err(self.records.wrong(line)),
            };
            self.records.limit(items.len() + 1, ITEMS, line)?;
            items.push(Item { line, expr: self.expression()?, alias });
        }
        Ok(items)
    }

    fn sources(&mut self) -> Result<Vec<From>, Refusal> {
        let mut from = Vec::new();
        while self.records.stands("from") || self.records.stands("join") {
            from.push(self.source()?);
        }
        Ok(from)
    }

    /// Reads a table or a join. Joins may stand thousands deep, so the open ones are kept in a list.
    fn source(&mut self) -> Result<From, Refusal> {
        let mut open: Vec<OpenJoin> = Vec::new();
        loop {
            let record = self.records.take()?;
            if record.fields[0] == b"join" {
                open.push(self.open_join(&record)?);
                continue;
            }
            let mut read = self.table(&record)?;
            loop {
                let Some(mut join) = open.pop() else {
                    return Ok(read);
                };
                let Some(left) = join.left.take() else {
                    join.left = Some(read);
                    open.push(join);
                    break;
                };
                let predicate = if join.on { Some(self.expression()?) } else { None };
                read = From::Join {
                    line: join.line,
                    kind: join.kind,
                    left: Box::new(left),
                    right: Box::new(read),
                    predicate,
                };
            }
        }
    }

    fn open_join(&self, record: &Record) -> Result<OpenJoin, Refusal> {
        let [_, kind, on @ (b"on" | b"bare")] = record.fields.as_slice() else {
            return Err(self.records.wrong(record.line));
        };
        let kind = self.fits(record.line, JoinKind::of(kind))?;
        Ok(OpenJoin { line: record.line, kind, on: *on == b"on", left: None })
    }

    fn table(&mut self, record: &Record) -> Result<From, Refusal> {
        let line = record.line;
        let (table, alias) = match record.fields.as_slice() {
            [b"from", table] => (self.fits(line, name(table))?, None),
            [b"from", table, alias] => (self.fits(line, name(table))?, Some(self.fits(line, name(alias))?)),
            _ => return Err(self.records.wrong(line)),
        };
        self.tables += 1;
        self.records.limit(self.tables, FROM_TABLES, line)?;
        Ok(From::Table { line, name: table, alias })
    }

    fn groups(&mut self) -> Result<Vec<Expr>, Refusal> {
        let mut groups = Vec::new();
        while self.records.stands("group") {
            let line = self.records.take_word("group")?;
            self.records.limit(groups.len() + 1, GROUPS, line)?;
            groups.push(self.expression()?);
        }
        Ok(groups)
    }

    fn order(&mut self) -> Result<Vec<OrderKey>, Refusal> {
        let mut keys = Vec::new();
        while self.records.stands("order") {
            let record = self.records.take()?;
            let direction = match record.fields.as_slice() {
                [_, b"asc"] => Direction::Ascending,
                [_, b"desc"] => Direction::Descending,
                _ => return Err(self.records.wrong(record.line)),
            };
            self.records.limit(keys.len() + 1, ORDER_KEYS, record.line)?;
            keys.push(OrderKey { expr: self.expression()?, direction });
        }
        Ok(keys)
    }

    fn inserted_names(&mut self) -> Result<Option<Vec<(usize, Name)>>, Refusal> {
        if !self.records.stands("columns") {
            return Ok(None);
        }
        self.records.take_word("columns")?;
        let mut names = Vec::new();
        while self.records.stands("name") {
            let record = self.records.take()?;
            let [_, column] = record.fields.as_slice() else {
                return Err(self.records.wrong(record.line));
            };
            let column = self.fits(record.line, name(column))?;
            self.records.limit(names.len() + 1, INSERTED_NAMES, record.line)?;
            names.push((record.line, column));
        }
        Ok(Some(names))
    }

    fn rows(&mut self) -> Result<Vec<Row>, Refusal> {
        let mut rows = Vec::new();
        while rows.is_empty() || self.records.stands("row") {
            let record = self.records.take()?;
            let [b"row", width] = record.fields.as_slice() else {
                return Err(self.records.wrong(record.line));
            };
            let width = self.fits(record.line, count(width))?;
            self.records.limit(rows.len() + 1, ROWS, record.line)?;
            let mut row = Vec::new();
            while row.len() < width {
                row.push(self.expression()?);
            }
            rows.push(row);
        }
        Ok(rows)
    }

    fn sets(&mut self) -> Result<Vec<Set>, Refusal> {
        let mut sets: Vec<Set> = Vec::new();
        while sets.is_empty() || self.records.stands("set") {
            let record = self.records.take()?;
            let line = record.line;
            let (column, default) = match record.fields.as_slice() {
                [b"set", column] => (self.fits(line, name(column))?, false),
                [b"set", column, b"default"] => (self.fits(line, name(column))?, true),
                _ => return Err(self.records.wrong(line)),
            };
            if sets.last().is_some_and(|last| last.name >= column) {
                return Err(self.records.wrong(line));
            }
            self.records.limit(sets.len() + 1, SETS, line)?;
            let expr = if default { None } else { Some(self.expression()?) };
            sets.push(Set { line, name: column, expr });
        }
        Ok(sets)
    }

    fn new_columns(&mut self) -> Result<Vec<NewColumn>, Refusal> {
        let mut columns = Vec::new();
        while self.records.stands("column") {
            let record = self.records.take()?;
            let (mut column, default) = self.fits(record.line, new_column(&record))?;
            self.records.limit(columns.len() + 1, COLUMNS, record.line)?;
            if default {
                column.default = Some(self.expression()?);
            }
            columns.push(column);
        }
        Ok(columns)
    }
}

/// A column of a `create`, and whether a default's expression follows.
fn new_column(record: &Record) -> Option<(NewColumn, bool)> {
    let (fields, reference) = match record.fields.as_slice() {
        [fields @ .., reference] if fields.len() == 8 => (fields, Some(name(reference)?)),
        fields => (fields, None),
    };
    let [_, column, datatype, key, nullable, unique, index, default] = fields else {
        return None;
    };
    let nullable = match *nullable {
        b"null" => Some(true),
        b"notnull" => Some(false),
        b"-" => None,
        _ => return None,
    };
    let column = NewColumn {
        line: record.line,
        name: name(column)?,
        datatype: DataType::of(datatype)?,
        key: given(key, "pk")?,
        nullable,
        unique: given(unique, "unique")?,
        index: given(index, "index")?,
        default: None,
        reference,
    };
    Some((column, given(default, "default")?))
}

/// Whether a field gives its word; `-` stands for a word that is not given.
fn given(field: &[u8], word: &str) -> Option<bool> {
    match field {
        b"-" => Some(false),
        _ if field == word.as_bytes() => Some(true),
        _ => None,
    }
}
