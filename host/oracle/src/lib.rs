//! The Rust planner's answer to a pair of texts, and its value of a constant expression.
//!
//! The planner's sources are compiled as they are (see build.rs). What they need and what is not supplied has a stand-in
//! here: the error type and its macros, the encoding, engine and execution modules. Where the sources are not at hand,
//! [`AVAILABLE`] is false, [`answer`], [`explain`] and [`evaluate`] always give [`Answer::Unavailable`], and there is no
//! [`Question`].

#[cfg(planner)]
mod ask;
#[cfg(planner)]
mod dropin;
#[cfg(planner)]
mod encoding;
#[cfg(planner)]
mod error;
#[cfg(planner)]
mod sql;

use texts::{Expr, Literal, Texts, Tree};

#[cfg(planner)]
pub use ask::Question;
#[cfg(planner)]
pub(crate) use error::{errdata, errinput};

/// Whether the planner's sources were at hand when this crate was built.
pub const AVAILABLE: bool = cfg!(planner);

/// What the Rust planner makes of a statement, or of a constant expression.
#[derive(Clone, Debug, PartialEq)]
pub enum Answer<T = Tree> {
    /// The statement's plan, or the expression's value.
    Given(T),
    /// Refused, with the number that document 01 has for the kind.
    Refused { number: u8, message: String },
    /// The planner panicked.
    Trapped(String),
    /// The planner asked for something that is not supplied (a regular expression).
    NotSupplied,
    /// The texts are not UTF-8, which the planner's strings are.
    NotUtf8,
    /// The planner's sources are not at hand.
    Unavailable,
}

/// What comes of planning toydb's own statement with both planners.
#[derive(Clone, Debug, PartialEq)]
pub enum DropIn {
    /// Both give the same `Plan`.
    Same,
    /// The proved planner refuses, and prints this.
    Refused(Vec<u8>),
    /// The plans differ, or there is only one.
    Differ(String),
    /// The texts are not UTF-8, which toydb's strings are.
    NotUtf8,
    /// The planner's sources are not at hand.
    Unavailable,
}

/// Has toydb's own statement and tables planned by `Planner::build`, and by the proved planner in its place: that is given
/// the two texts that an adapter makes of them, and what it prints becomes toydb's own plan.
#[cfg(planner)]
pub fn drop_in(texts: &Texts, planner: impl FnOnce(&[u8], &[u8]) -> Result<Vec<u8>, String>) -> DropIn {
    dropin::drop_in(texts, planner)
}

/// Has toydb's own statement and tables planned by both planners.
#[cfg(not(planner))]
pub fn drop_in(_: &Texts, _: impl FnOnce(&[u8], &[u8]) -> Result<Vec<u8>, String>) -> DropIn {
    DropIn::Unavailable
}

/// Has the Rust planner plan the statement.
#[cfg(planner)]
pub fn answer(texts: &Texts) -> Answer {
    ask::answer(texts)
}

/// Has the Rust planner plan the statement.
#[cfg(not(planner))]
pub fn answer(_: &Texts) -> Answer {
    Answer::Unavailable
}

/// Has the Rust planner plan the statement, and show the plan as EXPLAIN does.
#[cfg(planner)]
pub fn explain(texts: &Texts) -> Answer<String> {
    ask::explain(texts)
}

/// Has the Rust planner plan the statement, and show the plan as EXPLAIN does.
#[cfg(not(planner))]
pub fn explain(_: &Texts) -> Answer<String> {
    Answer::Unavailable
}

/// Has the Rust planner build an expression without columns, and evaluates it.
#[cfg(planner)]
pub fn evaluate(expr: &Expr) -> Answer<Literal> {
    ask::evaluate(expr)
}

/// Has the Rust planner build an expression without columns, and evaluates it.
#[cfg(not(planner))]
pub fn evaluate(_: &Expr) -> Answer<Literal> {
    Answer::Unavailable
}

/// A question of which the planner's time is taken: there is none.
#[cfg(not(planner))]
pub struct Question(std::convert::Infallible);

#[cfg(not(planner))]
impl Question {
    pub fn of(_: Texts) -> Option<Self> {
        None
    }

    pub fn time(&self, _: u32) -> std::time::Duration {
        match self.0 {}
    }
}
