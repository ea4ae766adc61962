//! The area's numbers, taken one after the other.

use core::fmt;

/// What is wrong with an area, and which of its numbers says so.
#[derive(Clone, Copy, Debug, PartialEq, Eq)]
pub struct Fault {
    /// The place of that number in the area, from 0.
    pub at: usize,
    /// What is wrong there.
    pub what: &'static str,
}

impl fmt::Display for Fault {
    fn fmt(&self, f: &mut fmt::Formatter<'_>) -> fmt::Result {
        write!(f, "number {} of the area: {}", self.at, self.what)
    }
}

impl core::error::Error for Fault {}

/// A run of numbers of an area, from a place in it on.
#[derive(Clone, Copy)]
pub struct Numbers<'a> {
    numbers: &'a [u32],
    at: usize,
}

impl<'a> Numbers<'a> {
    /// The numbers of a whole area.
    pub fn of(area: &'a [u32]) -> Self {
        Numbers { numbers: area, at: 0 }
    }

    /// The place of the next number in the area.
    pub fn at(&self) -> usize {
        self.at
    }

    /// A fault at the next number.
    pub fn fault(&self, what: &'static str) -> Fault {
        Fault { at: self.at, what }
    }

    pub fn len(&self) -> usize {
        self.numbers.len()
    }

    pub fn is_empty(&self) -> bool {
        self.numbers.is_empty()
    }

    /// The next numbers, as many as given, as a run of their own.
    pub fn part(&mut self, count: usize) -> Result<Numbers<'a>, Fault> {
        let (numbers, rest) =
            self.numbers.split_at_checked(count).ok_or(self.fault("fewer numbers than there should be"))?;
        let part = Numbers { numbers, at: self.at };
        *self = Numbers { numbers: rest, at: self.at + count };
        Ok(part)
    }

    /// All that are left, as a run of their own.
    pub fn rest(&mut self) -> Numbers<'a> {
        let rest = *self;
        *self = Numbers { numbers: &[], at: self.at + rest.len() };
        rest
    }

    pub fn take(&mut self) -> Result<u32, Fault> {
        let (first, rest) = self.numbers.split_first().ok_or(self.fault("a number is missing"))?;
        *self = Numbers { numbers: rest, at: self.at + 1 };
        Ok(*first)
    }

    /// A number that is below a bound.
    pub fn take_below(&mut self, bound: u32, otherwise: &'static str) -> Result<u32, Fault> {
        let fault = self.fault(otherwise);
        let number = self.take()?;
        if number < bound { Ok(number) } else { Err(fault) }
    }

    /// One more than a number that is below a bound, or 0 for none.
    pub fn take_optional(&mut self, bound: u32, otherwise: &'static str) -> Result<Option<u32>, Fault> {
        let fault = self.fault(otherwise);
        match self.take()?.checked_sub(1) {
            Some(number) if number >= bound => Err(fault),
            number => Ok(number),
        }
    }

    pub fn take_flag(&mut self) -> Result<bool, Fault> {
        Ok(self.take_below(2, "neither 0 nor 1")? == 1)
    }

    /// One of a list by its code, of which the first is 1.
    pub fn take_code<T: Copy>(&mut self, of: &[T], otherwise: &'static str) -> Result<T, Fault> {
        let fault = self.fault(otherwise);
        let place = self.take()?.checked_sub(1).ok_or(fault)?;
        of.get(place as usize).copied().ok_or(fault)
    }

    /// 64 bits, the low half first.
    pub fn take_long(&mut self) -> Result<u64, Fault> {
        let (low, high) = (self.take()?, self.take()?);
        Ok(u64::from(high) << 32 | u64::from(low))
    }

    /// All numbers that are left are 0. They are looked at in runs, since most of an area is zero.
    pub fn expect_zeros(&self) -> Result<(), Fault> {
        const RUN: usize = 64;
        let any = |run: &[u32]| run.iter().fold(0, |any, number| any | number) != 0;
        let Some(run) = self.numbers.chunks(RUN).position(any) else { return Ok(()) };
        let zeros = self.numbers[run * RUN..].iter().take_while(|number| **number == 0).count();
        Err(Fault { at: self.at + run * RUN + zeros, what: "not 0" })
    }

    pub fn expect_end(&self) -> Result<(), Fault> {
        if self.is_empty() { Ok(()) } else { Err(self.fault("a number is left over")) }
    }
}
