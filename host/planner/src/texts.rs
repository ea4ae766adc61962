//! The two texts: names and constants in them by their addresses, and the catalog's tables.

use crate::numbers::{Fault, Numbers};

/// The address of the statement's first byte; the catalog's are below it.
const STATEMENT: u32 = 65_536;

/// The most bytes of a name.
const MOST_NAME_BYTES: u32 = 64;

/// The two texts.
#[derive(Clone, Copy)]
pub struct Texts<'a> {
    pub catalog: &'a [u8],
    pub statement: &'a [u8],
}

impl<'a> Texts<'a> {
    /// A text, which may be empty.
    pub fn take_text(self, numbers: &mut Numbers) -> Result<&'a [u8], Fault> {
        let outside = numbers.fault("a place outside its text");
        let (address, length) = (numbers.take()?, numbers.take()?);
        self.bytes(address, length).ok_or(outside)
    }

    pub fn take_name(self, numbers: &mut Numbers) -> Result<&'a [u8], Fault> {
        let missing = numbers.fault("a name is missing");
        self.take_optional_name(numbers)?.ok_or(missing)
    }

    /// A name, or none where both numbers are 0.
    pub fn take_optional_name(self, numbers: &mut Numbers) -> Result<Option<&'a [u8]>, Fault> {
        let wrong = numbers.fault("a name outside its text, empty or too long");
        match (numbers.take()?, numbers.take()?) {
            (0, 0) => Ok(None),
            (address, length @ 1..=MOST_NAME_BYTES) => self.bytes(address, length).ok_or(wrong).map(Some),
            _ => Err(wrong),
        }
    }

    fn bytes(self, address: u32, length: u32) -> Option<&'a [u8]> {
        let (text, start) = match address.checked_sub(STATEMENT) {
            Some(start) => (self.statement, start),
            None => (self.catalog, address),
        };
        text.get(start as usize..)?.get(..length as usize)
    }

    /// The columns of the catalog's table of a name.
    pub fn table(self, name: &[u8]) -> Option<TableColumns<'a>> {
        let mut lines = Lines(self.catalog);
        lines.find(|line| word_of(line) == b"table" && name_in(line) == name)?;
        Some(TableColumns(lines))
    }
}

/// The names of a table's columns, in order.
#[derive(Clone)]
pub struct TableColumns<'a>(Lines<'a>);

impl<'a> Iterator for TableColumns<'a> {
    type Item = &'a [u8];

    fn next(&mut self) -> Option<&'a [u8]> {
        loop {
            let line = self.0.next()?;
            match word_of(line) {
                b"column" => return Some(name_in(line)),
                b"table" => self.0 = Lines(b""),
                // The default of a column.
                _ => {}
            }
        }
    }
}

/// The first field of a record.
fn word_of(line: &[u8]) -> &[u8] {
    line.split(|byte| *byte == b'\t').next().unwrap_or_default()
}

/// The second field of a record.
fn name_in(line: &[u8]) -> &[u8] {
    line.split(|byte| *byte == b'\t').nth(1).unwrap_or_default()
}

/// The lines of a text, without their LF.
#[derive(Clone)]
struct Lines<'a>(&'a [u8]);

impl<'a> Iterator for Lines<'a> {
    type Item = &'a [u8];

    fn next(&mut self) -> Option<&'a [u8]> {
        if self.0.is_empty() {
            return None;
        }
        let end = self.0.iter().position(|byte| *byte == b'\n').unwrap_or(self.0.len());
        let line = &self.0[..end];
        self.0 = self.0.get(end + 1..).unwrap_or_default();
        Some(line)
    }
}

/// A line of a text, without its LF; lines count from 1.
pub fn line(text: &[u8], number: u32) -> Option<&[u8]> {
    Lines(text).nth((number as usize).checked_sub(1)?)
}
