//! Lists in a plan: numbers of the area, as many for each element.

use core::fmt;
use core::marker::PhantomData;

use crate::numbers::{Fault, Numbers};
use crate::texts::Texts;

/// What an element may point to.
#[derive(Clone, Copy)]
pub struct Bounds<'a> {
    pub texts: Texts<'a>,
    /// How many cells there are.
    pub cells: u32,
}

/// What a list is made of.
pub trait Element<'a>: Sized {
    /// How many numbers it has.
    const SIZE: usize;

    fn take(numbers: &mut Numbers<'a>, bounds: Bounds<'a>) -> Result<Self, Fault>;
}

/// A list in a plan, read in place: a row's cells, the items of a projection, the columns of a new table ..
pub struct List<'a, T> {
    numbers: Numbers<'a>,
    bounds: Bounds<'a>,
    element: PhantomData<fn() -> T>,
}

impl<'a, T: Element<'a>> List<'a, T> {
    /// The list that the numbers are, once each element is seen to be right.
    pub(crate) fn of(numbers: Numbers<'a>, bounds: Bounds<'a>) -> Result<Self, Fault> {
        let mut rest = numbers;
        while !rest.is_empty() {
            T::take(&mut rest, bounds)?;
        }
        Ok(List { numbers, bounds, element: PhantomData })
    }

    /// How many elements there are.
    pub fn len(&self) -> usize {
        self.numbers.len() / T::SIZE
    }

    /// Whether there are none.
    pub fn is_empty(&self) -> bool {
        self.numbers.is_empty()
    }

    /// The element at a position.
    pub fn get(&self, position: usize) -> Option<T> {
        self.into_iter().nth(position)
    }

    /// The elements in order.
    pub fn iter(&self) -> Elements<'a, T> {
        Elements(*self)
    }
}

impl<T> Clone for List<'_, T> {
    fn clone(&self) -> Self {
        *self
    }
}

impl<T> Copy for List<'_, T> {}

impl<'a, T: Element<'a> + fmt::Debug> fmt::Debug for List<'a, T> {
    fn fmt(&self, f: &mut fmt::Formatter<'_>) -> fmt::Result {
        f.debug_list().entries(self).finish()
    }
}

impl<'a, T: Element<'a>> IntoIterator for List<'a, T> {
    type Item = T;
    type IntoIter = Elements<'a, T>;

    fn into_iter(self) -> Elements<'a, T> {
        self.iter()
    }
}

impl<'a, T: Element<'a>> IntoIterator for &List<'a, T> {
    type Item = T;
    type IntoIter = Elements<'a, T>;

    fn into_iter(self) -> Elements<'a, T> {
        self.iter()
    }
}

/// The elements of a [`List`] in order.
pub struct Elements<'a, T>(List<'a, T>);

impl<'a, T: Element<'a>> Iterator for Elements<'a, T> {
    type Item = T;

    fn next(&mut self) -> Option<T> {
        if self.0.is_empty() {
            return None;
        }
        // Each element was taken once, when the list was made.
        T::take(&mut self.0.numbers, self.0.bounds).ok()
    }

    fn size_hint(&self) -> (usize, Option<usize>) {
        (self.0.len(), Some(self.0.len()))
    }
}

impl<'a, T: Element<'a>> ExactSizeIterator for Elements<'a, T> {}
