//! The rows of the tables in docs/PERFORMANCE.md.

use super::growth::{Point, Series};
use super::{Line, Which};

/// A row of a table from its fields.
fn row(fields: &[String]) -> String {
    format!("| {} |", fields.join(" | "))
}

/// A row a question, with the numbers of several runs beside each other; then the same of the medians.
pub fn questions(runs: &[Vec<Line>]) -> Vec<String> {
    let mut rows = Vec::new();
    for which in [Which::Lowest, Which::Median] {
        for (at, line) in runs[0].iter().enumerate() {
            let numbers: Vec<_> = runs.iter().map(|lines| lines[at].numbers(which)).collect();
            let mut fields = vec![line.name.to_string(), which.word().to_string()];
            // Times and ratios with two decimals.
            for field in 0..5 {
                let of_runs: Vec<_> = numbers.iter().map(|numbers| shown(numbers[field], 2)).collect();
                let none = numbers.iter().all(|numbers| numbers[field].is_none());
                fields.push(if none { NONE.to_string() } else { of_runs.join(", ") });
            }
            rows.push(row(&fields));
        }
    }
    rows
}

/// What stands where there is no number.
const NONE: &str = "-";

fn shown(number: Option<f64>, decimals: usize) -> String {
    number.map_or(NONE.to_string(), |number| format!("{number:.decimals$}"))
}

/// A row a series: time a cell at its least size, in the middle and at its greatest.
pub fn growth(series: &Series, points: &[Point]) -> String {
    let chosen = [0, points.len() / 2, points.len() - 1].map(|at| &points[at]);
    let each = |show: &dyn Fn(&Point) -> String| chosen.map(show).join(", ");
    let mut fields = vec![
        series.name.to_string(),
        series.counts.to_string(),
        each(&|point| point.size.to_string()),
        each(&|point| point.cells.to_string()),
    ];
    fields.extend((0..3).map(|side| each(&|point| shown(point.times[side], 0))));
    row(&fields)
}
