//! The line texts of document 01: a catalog and a statement as Rust data, read with the refusals 2, 3 and 4, and written;
//! and the canonical form of a plan's tree.
//!
//! The reader follows document 01 and the project's readings of it. It shares nothing with the rules, which it is used to try.

mod expression;
pub mod limits;
mod read;
mod refusal;
mod schema;
mod statement;
mod tree;
mod write;

pub use expression::{Expr, ExprKind, Literal, Name, Operator};
pub use read::{Texts, read};
pub use refusal::{Refusal, Text};
pub use schema::{Column, DataType, Table};
pub use statement::{
    Clause, Direction, From, Item, JoinKind, NewColumn, OrderKey, Row, Select, Set, Statement,
};
pub use tree::Tree;
pub use write::{literal_record, write_catalog, write_statement};
