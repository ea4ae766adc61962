//! Stand-in for the engine module: what planning asks of a catalog, and the names that the sources mention.

use std::collections::HashSet;

use crate::errinput;
use crate::error::Result;
use crate::sql::types::{Row, Table, Value};

pub trait Catalog {
    /// The table of a name, if there is one.
    fn get_table(&self, table: &str) -> Result<Option<Table>>;

    /// The table of a name, or an error.
    fn must_get_table(&self, table: &str) -> Result<Table> {
        match self.get_table(table)? {
            Some(table) => Ok(table),
            None => errinput!("no such table: {table}"),
        }
    }
}

/// Named by the sources; planning has no transaction.
pub trait Transaction: Catalog {
    fn get(&self, table: &str, ids: &[Value]) -> Result<Vec<Row>>;
    fn lookup_index(&self, table: &str, column: &str, values: &[Value]) -> Result<HashSet<Value>>;
}
