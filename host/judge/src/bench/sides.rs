//! What is timed of a case: the proved planner, the Rust planner, SQLite, each side by itself.

use std::hint::black_box;
use std::time::{Duration, Instant};

use super::sql;
use super::sqlite::{Database, Sqlite};
use crate::compare::{Kind, Reason, Verdict};
use crate::entry::{self, LEAST_AREA};
use crate::generate::Case;
use crate::planning;

/// Runs something so many times and says how long they took. What is not part of the question is done out of that time.
pub type Side = Box<dyn FnMut(u32) -> Duration>;

/// The time of so many runs, behind one that is not timed.
pub fn timed(count: u32, mut run: impl FnMut()) -> Duration {
    run();
    let start = Instant::now();
    (0..count).for_each(|_| run());
    start.elapsed()
}

/// The proved planner: from both texts to the plan in the area, which holds the plan of the run before.
pub fn ours(case: &Case) -> Side {
    let (Case { catalog, statement }, mut area) = (case.clone(), vec![0; LEAST_AREA]);
    Box::new(move |count| {
        timed(count, || {
            black_box(entry::plan(black_box(&catalog), black_box(&statement), black_box(&mut area)));
        })
    })
}

/// The Rust planner's `build` alone, where its sources are at hand.
pub fn toydb(case: &Case) -> Option<Side> {
    let texts = texts::read(&case.catalog, &case.statement).ok()?;
    let question = oracle::Question::of(texts)?;
    Some(Box::new(move |count| question.time(count)))
}

/// The case as a database of SQLite's with a question, where its library is installed and takes the question.
pub fn database(case: &Case, sqlite: Option<Sqlite>) -> Option<Database> {
    let texts = texts::read(&case.catalog, &case.statement).ok()?;
    let tables: Vec<_> = texts.tables.iter().map(sql::create).collect();
    Database::new(sqlite?, &tables, &sql::question(&texts.statement)?).ok()
}

/// SQLite's prepare alone.
pub fn sqlite(case: &Case, sqlite: Option<Sqlite>) -> Option<Side> {
    let database = database(case, sqlite)?;
    Some(Box::new(move |count| database.time(count)))
}

/// An error where the proved planner does not plan the case as predicted and as the Rust planner does: nothing is timed
/// that is wrong. Where the Rust planner cannot be run on the case, the prediction alone is compared.
pub fn check(name: &str, case: &Case) -> Result<(), String> {
    match planning::compare(case, 1, 0) {
        Verdict::Agree(Kind::Planned(_)) => Ok(()),
        Verdict::Apart(Kind::Planned(_), Reason::NoSources | Reason::TooLarge) => Ok(()),
        verdict => Err(format!("{name} is not planned as it should be: {verdict:?}")),
    }
}
