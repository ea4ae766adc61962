//! How long planning takes, beside those a user would pick: toydb's own planner, and SQLite's prepare.

pub mod growth;
pub mod page;
mod picture;
pub mod questions;
mod reading;
mod sides;
mod sql;
mod sqlite;
mod times;

use sides::Side;

pub use picture::picture;
pub use sides::database;
pub use sqlite::Sqlite;
pub use times::{Times, Which};

/// Most of toydb's time that a question may take.
const TOYDB_GOAL: f64 = 0.2;
/// Most of SQLite's time that a question may take.
const SQLITE_GOAL: f64 = 1.0;
/// Most of the time of splitting both texts that reading them may take.
const READING_GOAL: f64 = 2.6;

/// How many runs a round has.
const RUNS: u32 = 8;

/// What stands above the lines.
pub const HEADER: &str = "question\tours\ttoydb\tratio\tSQLite\tratio";

/// The times of a question. Those of `reading` have splitting in toydb's place.
pub struct Line {
    pub name: &'static str,
    ours: Times,
    toydb: Option<Times>,
    sqlite: Option<Times>,
    /// Most of toydb's time that ours may be.
    goal: f64,
}

/// A question that is being timed.
struct Timing {
    line: Line,
    sides: [Option<Side>; 3],
}

impl Timing {
    fn new(name: &'static str, goal: f64, ours: Side, toydb: Option<Side>, sqlite: Option<Side>) -> Self {
        let times = |side: &Option<Side>| side.as_ref().map(|_| Times::default());
        let line = Line { name, ours: Times::default(), toydb: times(&toydb), sqlite: times(&sqlite), goal };
        Timing { line, sides: [Some(ours), toydb, sqlite] }
    }

    /// One round of each side, in turn.
    fn round(&mut self, runs: u32) {
        let line = &mut self.line;
        let times = [Some(&mut line.ours), line.toydb.as_mut(), line.sqlite.as_mut()];
        for (side, times) in self.sides.iter_mut().zip(times) {
            if let (Some(side), Some(times)) = (side, times) {
                times.add(side(runs), runs);
            }
        }
    }
}

/// Times the three questions and the reading: so many rounds, in each of which all sides of all of them have their turn.
pub fn bench(rounds: u64) -> Result<Vec<Line>, String> {
    let sqlite = Sqlite::find();
    let mut timings = Vec::new();
    for questions::Question { name, case } in questions::questions() {
        sides::check(name, &case)?;
        let (ours, toydb) = (sides::ours(&case), sides::toydb(&case));
        timings.push(Timing::new(name, TOYDB_GOAL, ours, toydb, sides::sqlite(&case, sqlite)));
    }
    timings.push(Timing::new("reading", READING_GOAL, reading::read(), Some(reading::split()), None));
    for _ in 0..rounds.max(1) {
        timings.iter_mut().for_each(|timing| timing.round(RUNS));
    }
    Ok(timings.into_iter().map(|timing| timing.line).collect())
}

impl Line {
    /// The fields behind the name: our time, toydb's and the ratio, SQLite's and the ratio; none where there is none.
    pub fn numbers(&self, which: Which) -> [Option<f64>; 5] {
        let ours = self.ours.get(which);
        let [toydb, sqlite] = [&self.toydb, &self.sqlite].map(|times| Some(times.as_ref()?.get(which)));
        let ratio = |other: Option<f64>| Some(ours / other?);
        [Some(ours), toydb, ratio(toydb), sqlite, ratio(sqlite)]
    }

    /// The line as it is printed.
    pub fn show(&self, which: Which) -> String {
        let number = |number: &Option<f64>| number.map_or("-".to_string(), |number| format!("{number:.3}"));
        let numbers: Vec<_> = self.numbers(which).iter().map(number).collect();
        format!("{}\t{}", self.name, numbers.join("\t"))
    }

    /// What is missed: a ratio of the lowest times that is above its goal, or that is not there to be checked. SQLite may
    /// be absent.
    pub fn missed(&self) -> Vec<String> {
        let [_, _, toydb, _, sqlite] = self.numbers(Which::Lowest);
        let above = |ratio: f64, goal: f64| {
            (ratio > goal).then(|| format!("{}: {ratio:.3} is above {goal:.1}", self.name))
        };
        let toydb = match toydb {
            Some(ratio) => above(ratio, self.goal),
            None => Some(format!("{}: nothing to compare with", self.name)),
        };
        toydb.into_iter().chain(sqlite.and_then(|ratio| above(ratio, SQLITE_GOAL))).collect()
    }
}

#[cfg(test)]
mod tests {
    use std::time::Duration;

    use super::*;

    fn times(micros: u64) -> Times {
        let mut times = Times::default();
        times.add(Duration::from_micros(micros), 1);
        times
    }

    fn line(ours: u64, toydb: Option<u64>, sqlite: Option<u64>) -> Line {
        let goal = TOYDB_GOAL;
        Line { name: "first", ours: times(ours), toydb: toydb.map(times), sqlite: sqlite.map(times), goal }
    }

    #[test]
    fn a_line_has_its_numbers_between_tabs() {
        let shown = line(20, Some(100), Some(80)).show(Which::Lowest);
        assert_eq!(shown, "first\t20.000\t100.000\t0.200\t80.000\t0.250");
        assert_eq!(line(20, None, None).show(Which::Median), "first\t20.000\t-\t-\t-\t-");
    }

    #[test]
    fn a_ratio_above_its_goal_is_missed() {
        assert!(line(20, Some(100), Some(20)).missed().is_empty());
        assert!(line(20, Some(100), None).missed().is_empty());
        assert_eq!(line(21, Some(100), Some(21)).missed(), ["first: 0.210 is above 0.2"]);
        assert_eq!(line(20, Some(100), Some(16)).missed(), ["first: 1.250 is above 1.0"]);
        assert_eq!(line(20, None, None).missed(), ["first: nothing to compare with"]);
    }
}
