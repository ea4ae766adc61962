//! How many comparisons of each operator came to which verdict.

use std::collections::BTreeMap;
use std::fmt;

use values::Operation;

use super::Verdict;

#[derive(Default)]
pub struct Tally {
    rows: BTreeMap<&'static str, Row>,
    /// What differs, the first few.
    pub shown: Vec<String>,
}

/// The comparisons of one operator.
#[derive(Clone, Copy, Default)]
struct Row {
    values: u64,
    /// Refused with 25, 26 and 27.
    refused: [u64; 3],
    not_worked_out: u64,
    traps: u64,
    not_compared: u64,
    differ: u64,
}

/// How many differences are kept.
const SHOWN: usize = 10;

impl Tally {
    pub fn add(&mut self, operation: Operation, verdict: Verdict) {
        let row = self.rows.entry(operation.word()).or_default();
        match verdict {
            Verdict::Value => row.values += 1,
            Verdict::Refused(number) => row.refused[number as usize - 25] += 1,
            Verdict::NotWorkedOut => row.not_worked_out += 1,
            Verdict::Trap => row.traps += 1,
            Verdict::NotCompared => row.not_compared += 1,
            Verdict::Differ(message) => {
                row.differ += 1;
                if self.shown.len() < SHOWN {
                    self.shown.push(message);
                }
            }
        }
    }

    fn sum(&self, of: impl Fn(&Row) -> u64) -> u64 {
        self.rows.values().map(of).sum()
    }

    /// The comparisons that agree.
    pub fn agreed(&self) -> u64 {
        self.sum(Row::agreed)
    }

    pub fn differ(&self) -> u64 {
        self.sum(|row| row.differ)
    }

    /// The operators that are refused with 28.
    pub fn not_worked_out(&self) -> u64 {
        self.sum(|row| row.not_worked_out)
    }

    /// The operators on which the Rust traps.
    pub fn traps(&self) -> u64 {
        self.sum(|row| row.traps)
    }

    /// The comparisons that neither agree nor differ.
    pub fn apart(&self) -> u64 {
        self.not_worked_out() + self.traps() + self.sum(|row| row.not_compared)
    }
}

impl Row {
    fn agreed(&self) -> u64 {
        self.values + self.refused.iter().sum::<u64>()
    }
}

impl fmt::Display for Tally {
    fn fmt(&self, f: &mut fmt::Formatter<'_>) -> fmt::Result {
        let heads = ["operator", "values", "25", "26", "27", "28 apart", "trap apart", "differ"];
        heads.iter().try_for_each(|head| write!(f, "{head:>12}"))?;
        writeln!(f)?;
        for (word, row) in &self.rows {
            let [overflow, zero, operand] = row.refused;
            let numbers = [row.values, overflow, zero, operand, row.not_worked_out, row.traps, row.differ];
            write!(f, "{word:>12}")?;
            numbers.iter().try_for_each(|number| write!(f, "{number:>12}"))?;
            writeln!(f)?;
        }
        write!(f, "{} agree, {} apart, {} differ", self.agreed(), self.apart(), self.differ())
    }
}
