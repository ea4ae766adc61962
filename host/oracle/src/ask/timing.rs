//! How long `Planner::build` takes by itself.

use std::hint::black_box;
use std::time::{Duration, Instant};

use texts::Texts;

use super::{Tables, statement};
use crate::sql::parser::ast;
use crate::sql::planner::Planner;

/// A catalog as the planner's own types, with a statement of which trees are made, as the planner uses one up.
pub struct Question {
    catalog: Tables,
    statement: texts::Statement,
}

impl Question {
    /// None where the texts are not UTF-8.
    pub fn of(texts: Texts) -> Option<Self> {
        let question =
            Question { catalog: Tables(statement::tables(&texts.tables)?), statement: texts.statement };
        statement::statement(&question.statement)?;
        Some(question)
    }

    /// The time of so many builds, behind one that is not timed. The trees are made before, and the plans go after.
    pub fn time(&self, count: u32) -> Duration {
        let mut trees = (0..=count).map(|_| self.tree()).collect::<Vec<_>>().into_iter();
        let mut plans = Vec::with_capacity(trees.len());
        let mut planner = Planner::new(&self.catalog);
        plans.extend(trees.by_ref().take(1).map(|tree| planner.build(tree)));
        let start = Instant::now();
        for tree in trees.by_ref() {
            plans.push(black_box(planner.build(black_box(tree))));
        }
        let time = start.elapsed();
        assert!(plans.iter().all(Result::is_ok), "what is timed is planned");
        time
    }

    fn tree(&self) -> ast::Statement {
        statement::statement(&self.statement).expect("it was made before")
    }
}
