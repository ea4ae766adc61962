//! The proved planner's exported entry, its answer in the terms of `texts`; and the listing of an area, which is checked
//! first for all that docs/PLAN.md promises of a plan.

pub use planner::{AVAILABLE, Fault, LEAST_AREA};

use planner::Plan;
use planner::entry::{Outcome, planner_plan};
use texts::{Refusal, Text};

/// What the planner answers.
#[derive(Clone, Copy, Debug, PartialEq, Eq)]
pub enum Answer {
    /// The plan stands in the area.
    Planned {
        cells: usize,
    },
    Refused(Refusal),
    /// Numbers that are neither.
    Unknown(Outcome),
    /// The planner is not linked.
    Unavailable,
}

/// Plans a statement over a catalog, into the area.
pub fn plan(catalog: &[u8], statement: &[u8], area: &mut [u32]) -> Answer {
    if !AVAILABLE {
        return Answer::Unavailable;
    }
    let outcome = planner_plan(catalog, statement, area);
    let refused =
        |text, line| Answer::Refused(Refusal { number: outcome.number as u8, text, line: line as usize });
    match outcome {
        Outcome { number: 0, text: 0, line: 0, count } => Answer::Planned { cells: count as usize },
        Outcome { number: 1..=29, text: 1, line, count: 0 } => refused(Text::Catalog, line),
        Outcome { number: 1..=29, text: 2, line, count: 0 } => refused(Text::Statement, line),
        unknown => Answer::Unknown(unknown),
    }
}

/// The printed plan of an area that the planner filled for the two texts. An area that does not keep a plan's promises is a
/// fault.
pub fn listing(catalog: &[u8], statement: &[u8], area: &[u32]) -> Result<Vec<u8>, Fault> {
    Ok(Plan::check(catalog, statement, area)?.listing())
}
