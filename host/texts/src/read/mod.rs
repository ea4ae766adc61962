//! Reading of the two texts.

mod catalog;
mod expression;
mod records;
mod statement;

use crate::limits::TEXT_BYTES;
use crate::{Refusal, Statement, Table, Text};

/// What the two texts say.
#[derive(Debug)]
pub struct Texts {
    pub tables: Vec<Table>,
    pub statement: Statement,
}

/// Reads both texts, the catalog first. A statement `other` is refused (4) once it is read whole.
pub fn read(catalog: &[u8], statement: &[u8]) -> Result<Texts, Refusal> {
    for (text, bytes) in [(Text::Catalog, catalog), (Text::Statement, statement)] {
        if bytes.len() > TEXT_BYTES {
            return Err(Refusal { number: 3, text, line: 0 });
        }
    }
    let tables = catalog::read(catalog)?;
    let statement = statement::read(statement)?;
    if let Statement::Other { line } = statement {
        return Err(Refusal::in_statement(4, line));
    }
    Ok(Texts { tables, statement })
}
