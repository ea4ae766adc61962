//! Stand-in for `itertools`: the adaptors that the planner's sources call.

use std::fmt::{Display, Write as _};

/// One of two iterators over the same items.
pub enum Either<L, R> {
    Left(L),
    Right(R),
}

impl<L, R> Iterator for Either<L, R>
where
    L: Iterator,
    R: Iterator<Item = L::Item>,
{
    type Item = L::Item;

    fn next(&mut self) -> Option<Self::Item> {
        match self {
            Self::Left(left) => left.next(),
            Self::Right(right) => right.next(),
        }
    }
}

pub trait Itertools: Iterator {
    /// Collects the items into a vector.
    fn collect_vec(self) -> Vec<Self::Item>
    where
        Self: Sized,
    {
        self.collect()
    }

    /// Collects the values of the results, or gives the first error.
    fn try_collect<T, U, E>(self) -> Result<U, E>
    where
        Self: Sized + Iterator<Item = Result<T, E>>,
        Result<U, E>: FromIterator<Result<T, E>>,
    {
        self.collect()
    }

    /// Displays the items with a separator between them.
    fn join(&mut self, separator: &str) -> String
    where
        Self::Item: Display,
    {
        let mut joined = String::new();
        for (i, item) in self.enumerate() {
            if i > 0 {
                joined.push_str(separator);
            }
            write!(joined, "{item}").expect("a string takes every write");
        }
        joined
    }
}

impl<I: Iterator + ?Sized> Itertools for I {}
