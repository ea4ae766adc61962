//! The plan as lines of text (docs/PLAN.md): fields parted by tabs, each line closed by LF.

use core::fmt::{self, Display, Write};

use crate::cell::Cell;
use crate::list::List;
use crate::node::Node;
use crate::plan::Plan;
use crate::statement::{NewColumn, Statement};
use crate::values::{CellNumber, Constant};

/// Where the pieces of a listing go. A name or a text is one piece.
type Out<'o> = &'o mut dyn FnMut(&[u8]) -> fmt::Result;

/// Prints a plan.
pub fn print(plan: &Plan, out: Out) -> fmt::Result {
    let mut lines = Lines(out);
    lines.line(format_args!("plan\t{}\t{}\t{}", plan.kind().word(), plan.nodes, plan.cells))?;
    for (number, cell) in plan.cells() {
        write!(lines, "cell\t{number}")?;
        lines.cell(cell)?;
        lines.end()?;
    }
    for (number, node) in plan.nodes() {
        write!(lines, "node\t{number}")?;
        lines.node(node)?;
        lines.end()?;
    }
    lines.statement(plan.statement())
}

struct Lines<'o>(Out<'o>);

impl Write for Lines<'_> {
    fn write_str(&mut self, text: &str) -> fmt::Result {
        (self.0)(text.as_bytes())
    }
}

impl Lines<'_> {
    /// A line whole.
    fn line(&mut self, line: fmt::Arguments) -> fmt::Result {
        self.write_fmt(line)?;
        self.end()
    }

    fn end(&mut self) -> fmt::Result {
        self.write_str("\n")
    }

    /// A number or word behind what the line has.
    fn field(&mut self, field: impl Display) -> fmt::Result {
        write!(self, "\t{field}")
    }

    /// Bytes of a text as a field.
    fn bytes(&mut self, bytes: &[u8]) -> fmt::Result {
        self.write_str("\t")?;
        (self.0)(bytes)
    }

    /// `as` and the alias, where there is one.
    fn alias(&mut self, alias: Option<&[u8]>) -> fmt::Result {
        match alias {
            Some(alias) => {
                self.field("as")?;
                self.bytes(alias)
            }
            None => Ok(()),
        }
    }

    fn cell(&mut self, cell: Cell) -> fmt::Result {
        match cell {
            Cell::Constant(constant) => {
                self.write_str("\t")?;
                self.constant(constant)
            }
            Cell::Column(position) => write!(self, "\tcol\t{position}"),
            Cell::Unary(operator, operand) => write!(self, "\t{}\t{operand}", operator.word()),
            Cell::Binary(operator, left, right) => write!(self, "\t{}\t{left}\t{right}", operator.word()),
            Cell::IsNull(operand) => write!(self, "\tis\t{operand}\tnull"),
            Cell::IsNan(operand, nan) => write!(self, "\tis\t{operand}\tfloat\t{:016x}", nan.0),
        }
    }

    /// The record of a constant.
    fn constant(&mut self, constant: Constant) -> fmt::Result {
        match constant {
            Constant::Null => self.write_str("null"),
            Constant::Bool(true) => self.write_str("bool\tt"),
            Constant::Bool(false) => self.write_str("bool\tf"),
            Constant::Int(value) => write!(self, "int\t{value}"),
            Constant::Float(bits) => write!(self, "float\t{:016x}", bits.0),
            Constant::Text(bytes) => {
                self.write_str("text")?;
                self.bytes(bytes)
            }
        }
    }

    fn cells<'a>(&mut self, cells: List<'a, CellNumber>) -> fmt::Result {
        cells.iter().try_for_each(|cell| self.field(cell))
    }

    fn node(&mut self, node: Node) -> fmt::Result {
        match node {
            Node::Scan { table, alias, filter } => {
                self.field("scan")?;
                self.bytes(table)?;
                self.alias(alias)?;
                filter.into_iter().try_for_each(|cell| self.field(cell))
            }
            Node::Values { rows } => {
                self.field("values")?;
                rows.iter().try_for_each(|row| {
                    write!(self, "\trow\t{}", row.len())?;
                    self.cells(row)
                })
            }
            Node::Join { left, right, outer, predicate } => {
                write!(self, "\tjoin\t{left}\t{right}\t{}", if outer { "outer" } else { "inner" })?;
                predicate.into_iter().try_for_each(|cell| self.field(cell))
            }
            Node::Filter { source, predicate } => write!(self, "\tfilter\t{source}\t{predicate}"),
            Node::Aggregate { source, groups, aggregates } => {
                write!(self, "\taggregate\t{source}")?;
                self.cells(groups)?;
                aggregates.iter().try_for_each(|of| write!(self, "\t{}\t{}", of.function.word(), of.argument))
            }
            Node::Project { source, items } => {
                write!(self, "\tproject\t{source}")?;
                items.iter().try_for_each(|item| {
                    self.field(item.cell)?;
                    self.alias(item.alias)
                })
            }
            Node::Order { source, keys } => {
                write!(self, "\torder\t{source}")?;
                keys.iter().try_for_each(|key| {
                    write!(self, "\t{}\t{}", key.cell, if key.descending { "desc" } else { "asc" })
                })
            }
            Node::Offset { source, rows } => write!(self, "\toffset\t{source}\t{rows}"),
            Node::Limit { source, rows } => write!(self, "\tlimit\t{source}\t{rows}"),
            Node::Remap { source, targets } => {
                write!(self, "\tremap\t{source}")?;
                targets.iter().try_for_each(|target| match target {
                    Some(target) => self.field(target),
                    None => self.field("-"),
                })
            }
        }
    }

    /// A line that begins with a word and a name.
    fn named(&mut self, word: &str, name: &[u8], rest: fmt::Arguments) -> fmt::Result {
        self.write_str(word)?;
        self.bytes(name)?;
        self.line(rest)
    }

    /// The statement's own lines.
    fn statement(&mut self, statement: Statement) -> fmt::Result {
        match statement {
            Statement::Select { .. } => Ok(()),
            Statement::Create { table, key, columns } => {
                self.named("create", table, format_args!("\t{key}"))?;
                columns.iter().try_for_each(|column| self.column(column))
            }
            Statement::Drop { table, if_exists } => {
                self.named("drop", table, format_args!("\t{}", if if_exists { "yes" } else { "no" }))
            }
            Statement::Delete { table, key, source } => {
                self.named("delete", table, format_args!("\t{key}\t{source}"))
            }
            Statement::Insert { table, map, source } => {
                self.named("insert", table, format_args!("\t{source}"))?;
                let Some(map) = map else { return Ok(()) };
                self.line(format_args!("columns\t{}", map.len()))?;
                map.iter().try_for_each(|to| self.line(format_args!("map\t{}\t{}", to.column, to.value)))
            }
            Statement::Update { table, key, sets, source } => {
                self.named("update", table, format_args!("\t{key}\t{source}"))?;
                sets.iter().try_for_each(|set| self.line(format_args!("set\t{}\t{}", set.column, set.cell)))
            }
        }
    }

    /// A new column, and its default on the next line.
    fn column(&mut self, column: NewColumn) -> fmt::Result {
        self.write_str("column")?;
        self.bytes(column.name)?;
        self.field(column.datatype.word())?;
        self.field(if column.nullable { "null" } else { "notnull" })?;
        self.field(if column.unique { "unique" } else { "-" })?;
        self.field(if column.index { "index" } else { "-" })?;
        column.reference.into_iter().try_for_each(|reference| self.bytes(reference))?;
        self.end()?;
        match column.default {
            Some(default) => self.constant(default)?,
            None => self.write_str("nodefault")?,
        }
        self.end()
    }
}
