//! How far a long run has come, on standard error.

use std::io::{IsTerminal, stderr};
use std::sync::atomic::{AtomicU64, Ordering};
use std::time::Instant;

use crate::out::error_line;

pub struct Progress {
    total: u64,
    done: AtomicU64,
    every: u64,
    start: Instant,
}

impl Progress {
    /// Of so many cases. Every 250,000 are said, and ten times as often to somebody who looks on.
    pub fn of(total: u64) -> Self {
        let every = if stderr().is_terminal() { 25_000 } else { 250_000 };
        Progress { total, done: AtomicU64::new(0), every, start: Instant::now() }
    }

    /// One case more is done.
    pub fn step(&self) {
        let done = self.done.fetch_add(1, Ordering::Relaxed) + 1;
        if self.is_said(done) {
            let seconds = self.start.elapsed().as_secs();
            error_line(format_args!("judge: {done} of {} cases in {seconds} s", self.total));
        }
    }

    /// Whether it is said that so many are done. Of all of them the result tells.
    fn is_said(&self, done: u64) -> bool {
        done.is_multiple_of(self.every) && done < self.total
    }
}

#[cfg(test)]
mod tests {
    use super::*;

    #[test]
    fn long_runs_say_how_far_they_have_come() {
        let said = |total: u64| {
            let progress = Progress::of(total);
            (1..=total).filter(|done| progress.is_said(*done)).count() as u64 * progress.every
        };
        assert_eq!(said(20_000), 0);
        assert_eq!(said(1_000_001), 1_000_000);
    }
}
