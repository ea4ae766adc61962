//! Expressions, with names for columns and no more brackets than are needed.

use core::fmt::{self, Formatter, Write};

use super::Printer;
use crate::cell::{Binary, Cell, Unary};
use crate::values::{CellNumber, Constant, NodeNumber};

impl Printer<'_> {
    /// A cell over the columns of a node.
    pub fn expression(&self, f: &mut Formatter, cell: CellNumber, over: NodeNumber) -> fmt::Result {
        self.operand(f, cell, over, 0)
    }

    /// A cell as an operand: in brackets where it binds less than its user.
    fn operand(&self, f: &mut Formatter, cell: CellNumber, over: NodeNumber, user: u8) -> fmt::Result {
        match self.left.get().checked_sub(1) {
            Some(left) => self.left.set(left),
            None => return f.write_str(".."),
        }
        let cell = self.plan.cell(cell);
        let binding = binding(cell);
        if binding < user {
            f.write_str("(")?;
        }
        match cell {
            Cell::Constant(constant) => show_constant(f, constant)?,
            Cell::Column(column) => self.column(f, over, column)?,
            Cell::Unary(operator, operand) => {
                let (before, behind) = around(operator);
                f.write_str(before)?;
                self.operand(f, operand, over, binding)?;
                f.write_str(behind)?;
            }
            Cell::Binary(operator, left, right) => {
                self.operand(f, left, over, binding)?;
                write!(f, " {} ", sign(operator))?;
                self.operand(f, right, over, binding)?;
            }
            Cell::IsNull(operand) => {
                self.operand(f, operand, over, binding)?;
                f.write_str(" IS NULL")?;
            }
            Cell::IsNan(operand, _) => {
                self.operand(f, operand, over, binding)?;
                f.write_str(" IS NAN")?;
            }
        }
        if binding < user { f.write_str(")") } else { Ok(()) }
    }
}

fn show_constant(f: &mut Formatter, constant: Constant) -> fmt::Result {
    match constant {
        Constant::Null => f.write_str("NULL"),
        Constant::Bool(true) => f.write_str("TRUE"),
        Constant::Bool(false) => f.write_str("FALSE"),
        Constant::Int(value) => write!(f, "{value}"),
        Constant::Float(bits) => write!(f, "{:?}", bits.value()),
        Constant::Text(bytes) => {
            f.write_str("'")?;
            bytes.utf8_chunks().try_for_each(|chunk| {
                write!(f, "{}", chunk.valid().escape_debug())?;
                if chunk.invalid().is_empty() { Ok(()) } else { f.write_char(char::REPLACEMENT_CHARACTER) }
            })?;
            f.write_str("'")
        }
    }
}

/// How tightly a cell binds, as in toydb's parser.
fn binding(cell: Cell) -> u8 {
    match cell {
        Cell::Constant(_) | Cell::Column(_) | Cell::Unary(Unary::SquareRoot, _) => 11,
        Cell::Unary(Unary::Identity | Unary::Negate, _) => 10,
        Cell::Unary(Unary::Factorial, _) => 9,
        Cell::Binary(Binary::Exponentiate, ..) => 8,
        Cell::Binary(Binary::Multiply | Binary::Divide | Binary::Remainder, ..) => 7,
        Cell::Binary(Binary::Add | Binary::Subtract, ..) => 6,
        Cell::Binary(Binary::GreaterThan | Binary::LessThan, ..) => 5,
        Cell::Binary(Binary::Equal | Binary::Like, ..) | Cell::IsNull(_) | Cell::IsNan(..) => 4,
        Cell::Unary(Unary::Not, _) => 3,
        Cell::Binary(Binary::And, ..) => 2,
        Cell::Binary(Binary::Or, ..) => 1,
    }
}

/// What stands before and behind an operand.
fn around(operator: Unary) -> (&'static str, &'static str) {
    match operator {
        Unary::Not => ("NOT ", ""),
        Unary::Factorial => ("", "!"),
        Unary::Identity => ("", ""),
        Unary::Negate => ("-", ""),
        Unary::SquareRoot => ("sqrt(", ")"),
    }
}

fn sign(operator: Binary) -> &'static str {
    match operator {
        Binary::And => "AND",
        Binary::Or => "OR",
        Binary::Equal => "=",
        Binary::GreaterThan => ">",
        Binary::LessThan => "<",
        Binary::Add => "+",
        Binary::Divide => "/",
        Binary::Exponentiate => "^",
        Binary::Multiply => "*",
        Binary::Remainder => "%",
        Binary::Subtract => "-",
        Binary::Like => "LIKE",
    }
}
