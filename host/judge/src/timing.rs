//! The commands that take times.

use std::fs;
use std::path::Path;

use judge::bench::growth::{self, Point, Series};
use judge::bench::{self, Sqlite, Which, page};

/// How many rounds the three questions are timed.
pub const ROUNDS: u64 = 3_000;

/// An error where a library that is timed is not linked.
fn linked() -> Result<(), String> {
    match (planner::AVAILABLE, reader::AVAILABLE) {
        (false, _) => Err("the planner's library is not linked".to_string()),
        (_, false) => Err("`tools/build reader_host` was not run".to_string()),
        _ => Ok(()),
    }
}

/// Prints a line a question, and the reading's. With `check`, whether all goals are met.
pub fn bench(rounds: u64, which: Which, check: bool) -> Result<bool, String> {
    linked()?;
    let lines = bench::bench(rounds)?;
    eprintln!("{} (microseconds, {} of {rounds} rounds)", bench::HEADER, which.word());
    lines.iter().for_each(|line| println!("{}", line.show(which)));
    let missed: Vec<_> = lines.iter().flat_map(bench::Line::missed).collect();
    if check {
        missed.iter().for_each(|missed| eprintln!("{missed}"));
    }
    Ok(!check || missed.is_empty())
}

/// The series with the times of their sizes.
fn grown() -> Result<Vec<(Series, Vec<Point>)>, String> {
    let sqlite = Sqlite::find();
    growth::series()
        .into_iter()
        .map(|series| growth::grow(&series, sqlite).map(|points| (series, points)))
        .collect()
}

/// Prints a line a size of each series, in nanoseconds a cell of the plan.
pub fn growth() -> Result<bool, String> {
    linked()?;
    eprintln!("series\tsize\tcells\tours\ttoydb\tSQLite (nanoseconds a cell of the plan, lowest)");
    for (series, points) in grown()? {
        for Point { size, cells, times } in points {
            let times = times.map(|time| time.map_or("-".to_string(), |time| format!("{time:.1}")));
            println!("{}\t{size}\t{cells}\t{}", series.name, times.join("\t"));
        }
    }
    Ok(true)
}

/// Prints the rows of the tables in docs/PERFORMANCE.md, and writes its picture.
pub fn page(runs: u64, rounds: u64, picture: &Path) -> Result<bool, String> {
    linked()?;
    let runs = (0..runs.max(1)).map(|_| bench::bench(rounds)).collect::<Result<Vec<_>, _>>()?;
    page::questions(&runs).iter().for_each(|row| println!("{row}"));
    let grown = grown()?;
    println!();
    grown.iter().for_each(|(series, points)| println!("{}", page::growth(series, points)));
    let version = Sqlite::find().map_or("not installed".to_string(), Sqlite::version);
    eprintln!("SQLite: {version}");
    fs::write(picture, bench::picture(&grown)).map_err(|error| format!("{}: {error}", picture.display()))?;
    Ok(true)
}
