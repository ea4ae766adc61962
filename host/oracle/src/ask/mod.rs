//! Puts a statement or a constant expression to the planner and brings its answer to the common form.

mod kind;
pub mod statement;
mod timing;
mod tree;

use std::cell::Cell;
use std::panic::{AssertUnwindSafe, catch_unwind};
use std::sync::Once;

use texts::{Expr, Literal, Texts};

use crate::Answer;
use crate::error::{Error, Result};
use crate::sql::engine::Catalog;
use crate::sql::planner::{Planner, Scope};
use crate::sql::types::Table;

pub use timing::Question;

pub struct Tables(pub Vec<Table>);

impl Catalog for Tables {
    fn get_table(&self, table: &str) -> Result<Option<Table>> {
        Ok(self.0.iter().find(|t| t.name == table).cloned())
    }
}

pub fn answer(texts: &Texts) -> Answer {
    let (Some(tables), Some(statement)) =
        (statement::tables(&texts.tables), statement::statement(&texts.statement))
    else {
        return Answer::NotUtf8;
    };
    let catalog = Tables(tables);
    asked(|| Ok(tree::plan(&Planner::new(&catalog).build(statement)?)))
}

pub fn explain(texts: &Texts) -> Answer<String> {
    let (Some(tables), Some(statement)) =
        (statement::tables(&texts.tables), statement::statement(&texts.statement))
    else {
        return Answer::NotUtf8;
    };
    let catalog = Tables(tables);
    asked(|| Ok(Planner::new(&catalog).build(statement)?.to_string()))
}

pub fn evaluate(expr: &Expr) -> Answer<Literal> {
    let Some(expr) = statement::expression(expr) else {
        return Answer::NotUtf8;
    };
    asked(|| {
        let built = Planner::<Tables>::build_expression(expr, &Scope::new())?;
        Ok(tree::literal(&built.evaluate(None)?))
    })
}

/// What the planner answers when a question is run.
pub fn asked<T>(run: impl FnOnce() -> Result<T>) -> Answer<T> {
    match quietly(run) {
        Ok(Ok(given)) => Answer::Given(given),
        Ok(Err(Error::InvalidInput { format, message })) => match kind::number(format) {
            Some(number) => Answer::Refused { number, message },
            None => panic!("document 01 has no number for the planner's error: {message}"),
        },
        Ok(Err(Error::NotSupplied)) => Answer::NotSupplied,
        Ok(Err(error @ Error::InvalidData(_))) => panic!("not an error of planning: {error}"),
        Err(message) => Answer::Trapped(message),
    }
}

thread_local! {
    static QUIET: Cell<bool> = const { Cell::new(false) };
}

/// Runs a function whose panic is an answer: it is not reported on standard error.
fn quietly<T>(run: impl FnOnce() -> T) -> std::result::Result<T, String> {
    static HOOK: Once = Once::new();
    HOOK.call_once(|| {
        let report = std::panic::take_hook();
        std::panic::set_hook(Box::new(move |info| {
            if !QUIET.get() {
                report(info);
            }
        }));
    });
    QUIET.set(true);
    let result = catch_unwind(AssertUnwindSafe(run));
    QUIET.set(false);
    result.map_err(|payload| match payload.downcast::<String>() {
        Ok(message) => *message,
        Err(payload) => payload.downcast_ref::<&str>().map_or("a panic", |message| *message).to_string(),
    })
}
