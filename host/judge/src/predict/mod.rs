//! What the planning program should print of two texts, worked out from document 01 and the project's readings of it.
//!
//! This is a second planner, independent of the rules and of the Rust. It carries the lines of records and the order of
//! shared cells, which the Rust planner does not have; where both speak, the Rust's answer is held against it.

mod aggregate;
mod constant;
mod expression;
mod from;
mod plan;
mod scope;
mod select;
mod statement;
mod walk;

use texts::{Refusal, Statement, Texts, read};

/// What should be printed of two texts.
#[derive(Clone, Debug, PartialEq)]
pub struct Prediction {
    /// The refusal, where the statement is refused.
    pub refusal: Option<Refusal>,
    /// The printed text.
    pub listing: Vec<u8>,
}

/// Predicts what is printed of a catalog and a statement.
pub fn predict(catalog: &[u8], statement: &[u8]) -> Prediction {
    match read(catalog, statement).and_then(|texts| planned(&texts)) {
        Ok(listing) => Prediction { refusal: None, listing },
        Err(refusal) => Prediction { refusal: Some(refusal), listing: refusal.printed() },
    }
}

/// The printed plan of texts that were read.
pub fn planned(texts: &Texts) -> Result<Vec<u8>, Refusal> {
    let tables = &texts.tables;
    match &texts.statement {
        Statement::Select(select) => self::select::plan(tables, select),
        Statement::Delete { line, table, filter } => statement::delete(tables, *line, table, filter.as_ref()),
        Statement::Insert { line, table, names, rows } => {
            statement::insert(tables, *line, table, names.as_deref(), rows)
        }
        Statement::Update { line, table, sets, filter } => {
            statement::update(tables, *line, table, sets, filter.as_ref())
        }
        Statement::Create { line, name, columns } => statement::create(*line, name, columns),
        Statement::Drop { name, if_exists } => Ok(statement::drop(name, *if_exists)),
        Statement::Other { line } => Err(Refusal::in_statement(4, *line)),
    }
}
