//! How the time grows with the size of a question, as time a cell of the plan.

use std::time::Duration;

use super::sides::{self, Side};
use super::sqlite::Sqlite;
use super::times::{Times, Which};
use crate::entry::{Answer, LEAST_AREA, plan};
use crate::generate::{Case, Lines, catalog};

/// Questions of one form, by their sizes.
pub struct Series {
    pub name: &'static str,
    /// What the size counts.
    pub counts: &'static str,
    sizes: Vec<usize>,
    case: fn(usize) -> Case,
}

impl Series {
    /// The questions, smallest first.
    pub fn cases(&self) -> impl Iterator<Item = (usize, Case)> {
        self.sizes.iter().map(|&size| (size, (self.case)(size)))
    }
}

/// All series.
pub fn series() -> [Series; 6] {
    let doubling = |most| (0..).map(|power| 1 << power).take_while(move |&size| size <= most);
    let series = |name, counts, sizes, case| Series { name, counts, sizes, case };
    [
        series("ge", "chained >=", (1..=16).collect(), comparisons),
        series("expression", "expression cells", doubling(512).collect(), expression),
        series("columns", "starred columns", doubling(128).chain([255]).collect(), columns),
        series("tables", "joined tables", doubling(16).collect(), tables),
        series("groups", "groups, each an item", doubling(64).collect(), groups),
        series("aggregates", "aggregates", doubling(128).chain([200]).collect(), aggregates),
    ]
}

/// `WHERE c00 >= c01 >= c02 ..`, from left to right.
fn comparisons(size: usize) -> Case {
    let mut statement = Lines::of(&["select", "item", "int 1", "from t0", "where"]);
    (0..size).for_each(|_| statement.push("op ge"));
    (0..=size).for_each(|column| statement.push(&format!("col c{column:02}")));
    Case { catalog: catalog(&[17]), statement: statement.end() }
}

/// An item, and a WHERE of columns joined by AND that has all other cells.
fn expression(size: usize) -> Case {
    fn tree(statement: &mut Lines, first: usize, leaves: usize) {
        if leaves == 1 {
            return statement.push(&format!("col c{:02}", first % 16));
        }
        statement.push("op and");
        tree(statement, first, leaves / 2);
        tree(statement, first + leaves / 2, leaves - leaves / 2);
    }
    let mut statement = Lines::of(&["select", "item", "int 1", "from t0"]);
    if size > 1 {
        statement.push("where");
        tree(&mut statement, 0, size / 2);
    }
    Case { catalog: catalog(&[16]), statement: statement.end() }
}

/// A star over the columns of up to four tables, beside an item. With it they are 256 where the columns are 255.
fn columns(size: usize) -> Case {
    let mut statement = Lines::of(&["select", "item", "star", "item", "int 1"]);
    let widths: Vec<_> = (0..size).step_by(64).map(|first| (size - first).min(64)).collect();
    (0..widths.len()).for_each(|table| statement.push(&format!("from t{table}")));
    Case { catalog: catalog(&widths), statement: statement.end() }
}

/// Inner joins of a table of four columns with itself, each by a column of the table before.
fn tables(size: usize) -> Case {
    fn join(statement: &mut Lines, tables: usize) {
        let last = tables - 1;
        if last == 0 {
            return statement.push("from t0 a0");
        }
        statement.push("join inner on");
        join(statement, last);
        statement.push(&format!("from t0 a{last}"));
        statement.push("op eq");
        statement.push(&format!("col a{} c00", last - 1));
        statement.push(&format!("col a{last} c01"));
    }
    let mut statement = Lines::of(&["select", "item", "int 1"]);
    join(&mut statement, size);
    Case { catalog: catalog(&[4]), statement: statement.end() }
}

/// Groups that differ in their last cell only, each of which is an item too.
fn groups(size: usize) -> Case {
    let mut statement = Lines::of(&["select"]);
    let mut push = |record: &str, from: bool| {
        for group in 0..size {
            statement.push(record);
            statement.push("op add");
            statement.push("col c00");
            statement.push(&format!("int {group}"));
        }
        if from {
            statement.push("from t0");
        }
    };
    push("item", true);
    push("group", false);
    Case { catalog: catalog(&[1]), statement: statement.end() }
}

/// Different aggregates: one an item up to 64, the next 64 in ORDER BY, the others added to those of the items.
fn aggregates(size: usize) -> Case {
    const MOST: usize = 64;
    fn aggregate(statement: &mut Lines, number: usize) {
        let name = ["avg", "count", "max", "min", "sum"][number % 5];
        statement.push(&format!("fn {name} 1"));
        statement.push(&format!("col c{:02}", number / 5));
    }
    let mut statement = Lines::of(&["select"]);
    for item in 0..size.min(MOST) {
        let added = (2 * MOST + item..size).step_by(MOST);
        statement.push("item");
        added.clone().for_each(|_| statement.push("op add"));
        aggregate(&mut statement, item);
        added.for_each(|number| aggregate(&mut statement, number));
    }
    statement.push("from t0");
    for key in MOST..size.min(2 * MOST) {
        statement.push("order asc");
        aggregate(&mut statement, key);
    }
    Case { catalog: catalog(&[40]), statement: statement.end() }
}

/// The times of one size: ours, toydb's and SQLite's, in nanoseconds a cell of the plan.
pub struct Point {
    pub size: usize,
    pub cells: usize,
    pub times: [Option<f64>; 3],
}

/// A side that takes longer than this, twice, is not timed, nor at greater sizes.
const LONGEST: Duration = Duration::from_millis(50);

/// Times the questions of a series, all sides turn by turn.
pub fn grow(series: &Series, sqlite: Option<Sqlite>) -> Result<Vec<Point>, String> {
    let mut points = Vec::new();
    let mut timed = [true; 3];
    for (size, case) in series.cases() {
        sides::check(&format!("{} {size}", series.name), &case)?;
        let mut sides = [Some(sides::ours(&case)), sides::toydb(&case), sides::sqlite(&case, sqlite)];
        for (side, timed) in sides.iter_mut().zip(&mut timed) {
            *timed = *timed && side.as_mut().is_some_and(|side| side(1).min(side(1)) <= LONGEST);
            side.take_if(|_| !*timed);
        }
        let cells = cells(&case)?;
        let a_cell = |times: Option<Times>| Some(times?.get(Which::Lowest) * 1e3 / cells as f64);
        points.push(Point { size, cells, times: turn_by_turn(sides).map(a_cell) });
    }
    Ok(points)
}

/// Rounds of all sides, as many and as long as their times allow.
fn turn_by_turn(mut sides: [Option<Side>; 3]) -> [Option<Times>; 3] {
    const MOST_ROUNDS: u128 = 400;
    let slowest = sides.iter_mut().flatten().map(|side| side(1)).max().unwrap_or_default();
    let runs = if slowest < Duration::from_millis(1) { super::RUNS } else { 1 };
    let rounds = (LONGEST * 8).as_micros() / (slowest.as_micros() * u128::from(runs)).max(1);
    let mut times = sides.each_ref().map(|side| side.as_ref().map(|_| Times::default()));
    for _ in 0..rounds.clamp(5, MOST_ROUNDS) {
        for (side, times) in sides.iter_mut().zip(&mut times) {
            if let (Some(side), Some(times)) = (side, times) {
                times.add(side(runs), runs);
            }
        }
    }
    times
}

/// How many cells the plan has.
fn cells(case: &Case) -> Result<usize, String> {
    match plan(&case.catalog, &case.statement, &mut vec![0; LEAST_AREA]) {
        Answer::Planned { cells } => Ok(cells),
        answer => Err(format!("{answer:?}")),
    }
}
