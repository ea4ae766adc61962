//! Cases by their numbers under a seed.

use judge::generate::{Case, case, damaged};
use texts::read;

use crate::arguments::Arguments;

/// A run of case numbers under a seed, on some threads.
#[derive(Clone, Copy)]
pub struct Numbers {
    pub seed: u64,
    pub first: u64,
    pub count: u64,
    pub threads: u64,
}

impl Numbers {
    /// The options that name a run.
    pub const OPTIONS: [&str; 4] = ["seed", "first", "count", "threads"];

    pub fn of(arguments: &Arguments, count: u64) -> Result<Self, String> {
        let threads = arguments.option("threads", 1);
        if !(1..=256).contains(&threads) {
            return Err(format!("--threads wants a number from 1 to 256, not {threads}"));
        }
        Ok(Numbers {
            seed: arguments.option("seed", 1),
            first: arguments.option("first", 0),
            count: arguments.option("count", count),
            threads,
        })
    }

    /// The numbers, in their order.
    pub fn all(self) -> impl Iterator<Item = u64> {
        (self.first..=u64::MAX).take(usize::try_from(self.count).unwrap_or(usize::MAX))
    }

    pub fn cases(self) -> impl Iterator<Item = (u64, Case)> {
        self.all().map(move |number| (number, case(self.seed, number)))
    }

    /// The numbers of one thread: every so many, from its own on, without end.
    fn of_thread(self, thread: u64) -> impl Iterator<Item = u64> {
        let step = usize::try_from(self.threads).unwrap_or(usize::MAX);
        (self.first.saturating_add(thread)..=u64::MAX).step_by(step)
    }

    /// How many cases one thread takes.
    fn share(self, thread: u64) -> usize {
        let share = self.count / self.threads + u64::from(thread < self.count % self.threads);
        usize::try_from(share).unwrap_or(usize::MAX)
    }
}

/// Which cases of a seed are taken.
pub enum Cases {
    All,
    /// Those whose statements begin with one of the words.
    Of(Vec<&'static str>),
    /// Those whose texts are read.
    Read,
    /// Those of the numbers, damaged.
    Damaged,
}

impl Cases {
    /// The cases of one thread.
    pub fn of_thread(&self, numbers: Numbers, thread: u64) -> impl Iterator<Item = (u64, Case)> {
        let make = if matches!(self, Cases::Damaged) { damaged } else { case };
        let cases = numbers.of_thread(thread).map(move |number| (number, make(numbers.seed, number)));
        cases.filter(|(_, case)| self.takes(case)).take(numbers.share(thread))
    }

    fn takes(&self, case: &Case) -> bool {
        match self {
            Cases::All | Cases::Damaged => true,
            Cases::Of(words) => words.iter().any(|word| word.as_bytes() == case.word()),
            Cases::Read => read(&case.catalog, &case.statement).is_ok(),
        }
    }
}
