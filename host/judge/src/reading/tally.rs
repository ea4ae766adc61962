//! How many comparisons came to which verdict.

use std::collections::BTreeMap;
use std::fmt;

use super::Verdict;

#[derive(Default)]
pub struct Tally {
    agree: BTreeMap<Verdict, u64>,
    not_compared: u64,
    differ: u64,
    /// What differs, the first few.
    pub shown: Vec<String>,
}

/// How many differences are kept.
const SHOWN: usize = 10;

impl Tally {
    pub fn add(&mut self, name: &str, verdict: Verdict) {
        match verdict {
            Verdict::Differ(message) => {
                self.differ += 1;
                if self.shown.len() < SHOWN {
                    self.shown.push(format!("{name}: {message}"));
                }
            }
            Verdict::NotCompared => self.not_compared += 1,
            Verdict::Read(_) | Verdict::Refused(..) => *self.agree.entry(verdict).or_default() += 1,
        }
    }

    /// How many comparisons came to a verdict.
    pub fn count(&self, verdict: &Verdict) -> u64 {
        self.agree.get(verdict).copied().unwrap_or_default()
    }

    /// The comparisons that agree.
    pub fn agreed(&self) -> u64 {
        self.agree.values().sum()
    }

    pub fn differ(&self) -> u64 {
        self.differ
    }
}

impl fmt::Display for Tally {
    fn fmt(&self, f: &mut fmt::Formatter<'_>) -> fmt::Result {
        for (verdict, count) in &self.agree {
            let verdict = match verdict {
                Verdict::Read(kind) => format!("read {kind:?}"),
                Verdict::Refused(number, text) => format!("refused {number} {text}"),
                Verdict::NotCompared | Verdict::Differ(_) => unreachable!("no agreement"),
            };
            writeln!(f, "{verdict:<20} {count:>10}")?;
        }
        write!(f, "{} agree, {} not compared, {} differ", self.agreed(), self.not_compared, self.differ)
    }
}
