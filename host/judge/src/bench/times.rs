//! The times of one side, round by round.

use std::time::Duration;

/// How long one run took, in microseconds, a number a round.
#[derive(Clone, Debug, Default)]
pub struct Times(Vec<f64>);

impl Times {
    /// Adds a round of so many runs.
    pub fn add(&mut self, round: Duration, runs: u32) {
        self.0.push(round.as_secs_f64() * 1e6 / f64::from(runs.max(1)));
    }

    /// The least of all rounds, or the one in the middle. There is at least one.
    pub fn get(&self, which: Which) -> f64 {
        let mut rounds = self.0.clone();
        rounds.sort_by(f64::total_cmp);
        match which {
            Which::Lowest => rounds[0],
            Which::Median => rounds[rounds.len() / 2],
        }
    }
}

/// Which of all rounds is shown.
#[derive(Clone, Copy, Debug, PartialEq, Eq)]
pub enum Which {
    Lowest,
    Median,
}

impl Which {
    pub fn word(self) -> &'static str {
        match self {
            Which::Lowest => "lowest",
            Which::Median => "median",
        }
    }
}

#[cfg(test)]
mod tests {
    use super::*;

    #[test]
    fn a_round_counts_by_its_runs() {
        let mut times = Times::default();
        for micros in [40, 8, 16, 12, 4000] {
            times.add(Duration::from_micros(micros), 4);
        }
        assert_eq!(times.get(Which::Lowest), 2.0);
        assert_eq!(times.get(Which::Median), 4.0);
    }
}
