//! The cells of a printed plan as toydb's expressions, nothing shared.

use super::lines::{Fields, number, unknown};
use crate::sql::types::{Expression, Value};

/// The cells so far, each unfolded.
#[derive(Default)]
pub struct Cells(Vec<Expression>);

impl Cells {
    /// Adds a cell by the fields behind its number.
    pub fn add(&mut self, fields: Fields) -> Result<(), String> {
        let cell = self.read(fields)?;
        self.0.push(cell);
        Ok(())
    }

    /// The expression of a cell's number.
    pub fn get(&self, field: &str) -> Result<Expression, String> {
        self.0.get(number::<usize>(field)?).cloned().ok_or_else(|| format!("there is no cell {field}"))
    }

    fn read(&self, fields: Fields) -> Result<Expression, String> {
        use Expression::*;
        let one = |build: fn(Box<Expression>) -> Expression, operand| Ok(build(Box::new(self.get(operand)?)));
        match fields {
            ["col", position] => Ok(Column(number(position)?)),
            ["not", operand] => one(Not, operand),
            ["fact", operand] => one(Factorial, operand),
            ["ident", operand] => one(Identity, operand),
            ["neg", operand] => one(Negate, operand),
            ["sqrt", operand] => one(SquareRoot, operand),
            ["is", operand, literal @ ..] => Ok(Is(Box::new(self.get(operand)?), value(literal)?)),
            [word, left, right] => {
                let build = match *word {
                    "and" => And,
                    "or" => Or,
                    "eq" => Equal,
                    "gt" => GreaterThan,
                    "lt" => LessThan,
                    "add" => Add,
                    "div" => Divide,
                    "pow" => Exponentiate,
                    "mul" => Multiply,
                    "rem" => Remainder,
                    "sub" => Subtract,
                    "like" => Like,
                    _ => return unknown(fields),
                };
                Ok(build(Box::new(self.get(left)?), Box::new(self.get(right)?)))
            }
            literal => Ok(Constant(value(literal)?)),
        }
    }
}

/// The value of a literal's fields.
pub fn value(fields: Fields) -> Result<Value, String> {
    Ok(match fields {
        ["null"] => Value::Null,
        ["bool", "t"] => Value::Boolean(true),
        ["bool", "f"] => Value::Boolean(false),
        ["int", digits] => Value::Integer(number(digits)?),
        ["float", digits] => Value::Float(f64::from_bits(
            u64::from_str_radix(digits, 16).map_err(|_| format!("{digits:?} is no float"))?,
        )),
        ["text", text] => Value::String(text.to_string()),
        fields => return unknown(fields),
    })
}
