//! Lines, fields and the words that stand in fields.

use crate::limits::NAME_BYTES;
use crate::{Literal, Name, Refusal, Text};

/// The records of a text that are still to be read.
pub struct Records<'a> {
    text: Text,
    rest: &'a [u8],
    /// The number of the line that `rest` begins with.
    line: usize,
}

/// The fields of a record, with the number of its line.
pub struct Record<'a> {
    pub line: usize,
    pub fields: Vec<&'a [u8]>,
}

impl<'a> Records<'a> {
    pub fn new(text: Text, bytes: &'a [u8]) -> Self {
        Records { text, rest: bytes, line: 1 }
    }

    pub fn at_end(&self) -> bool {
        self.rest.is_empty()
    }

    /// The number of the line at hand; behind the last line, the line where a record is missing.
    pub fn line(&self) -> usize {
        self.line
    }

    /// The first field of the line at hand, whether or not the line is closed; none at the end.
    pub fn keyword(&self) -> Option<&'a [u8]> {
        if self.at_end() { None } else { self.rest.split(|&b| b == b'\t' || b == b'\n').next() }
    }

    /// Whether the first field of the line at hand is the word.
    pub fn stands(&self, word: &str) -> bool {
        self.keyword() == Some(word.as_bytes())
    }

    /// Takes the line at hand. A missing line and one that is not closed by LF are wrong.
    pub fn take(&mut self) -> Result<Record<'a>, Refusal> {
        let line = self.line;
        let end = self.rest.iter().position(|&b| b == b'\n').ok_or_else(|| self.wrong(line))?;
        let fields = self.rest[..end].split(|&b| b == b'\t').collect();
        self.rest = &self.rest[end + 1..];
        self.line += 1;
        Ok(Record { line, fields })
    }

    /// Takes the line at hand, which must have this one field.
    pub fn take_word(&mut self, word: &str) -> Result<usize, Refusal> {
        let record = self.take()?;
        match record.fields.as_slice() {
            [field] if *field == word.as_bytes() => Ok(record.line),
            _ => Err(self.wrong(record.line)),
        }
    }

    /// Takes the line at hand, which must be a literal record.
    pub fn take_literal(&mut self) -> Result<Literal, Refusal> {
        let record = self.take()?;
        literal(&record.fields).ok_or_else(|| self.wrong(record.line))
    }

    /// Refusal 2 at a line.
    pub fn wrong(&self, line: usize) -> Refusal {
        Refusal { number: 2, text: self.text, line }
    }

    /// Refusal 3 at a line if a number passes a limit.
    pub fn limit(&self, number: usize, most: usize, line: usize) -> Result<(), Refusal> {
        if number > most {
            return Err(Refusal { number: 3, text: self.text, line });
        }
        Ok(())
    }
}

/// A name's field.
pub fn name(field: &[u8]) -> Option<Name> {
    (1..=NAME_BYTES).contains(&field.len()).then(|| field.to_vec())
}

/// A count or a position. One that is too large for the number type is the largest number, which no text meets.
pub fn count(field: &[u8]) -> Option<usize> {
    let digits = shortest_digits(field)?;
    Some(digits.parse().unwrap_or(usize::MAX))
}

/// The fields of a literal record.
pub fn literal(fields: &[&[u8]]) -> Option<Literal> {
    match fields {
        [b"null"] => Some(Literal::Null),
        [b"bool", b"t"] => Some(Literal::Bool(true)),
        [b"bool", b"f"] => Some(Literal::Bool(false)),
        [b"int", digits] => integer(digits).map(Literal::Int),
        [b"float", digits] => bits(digits).map(Literal::Float),
        [b"text", bytes] => Some(Literal::Text(bytes.to_vec())),
        _ => None,
    }
}

/// A decimal with no sign and no needless zero in front.
fn shortest_digits(field: &[u8]) -> Option<&str> {
    let shortest = match field {
        [] => false,
        [b'0'] => true,
        _ => field[0] != b'0' && field.iter().all(u8::is_ascii_digit),
    };
    if shortest { std::str::from_utf8(field).ok() } else { None }
}

/// A signed decimal in its shortest form, within 64 bits.
fn integer(field: &[u8]) -> Option<i64> {
    let magnitude = shortest_digits(field.strip_prefix(b"-").unwrap_or(field))?;
    if field == b"-0" {
        return None;
    }
    let sign = if field[0] == b'-' { "-" } else { "" };
    format!("{sign}{magnitude}").parse().ok()
}

/// The bits of a float: 16 lower-case hex digits.
fn bits(field: &[u8]) -> Option<u64> {
    let hex = |b: &u8| matches!(b, b'0'..=b'9' | b'a'..=b'f');
    if field.len() != 16 || !field.iter().all(hex) {
        return None;
    }
    u64::from_str_radix(std::str::from_utf8(field).ok()?, 16).ok()
}

#[cfg(test)]
mod tests {
    use super::*;

    #[test]
    fn counts_are_shortest_and_of_any_length() {
        assert_eq!(count(b"0"), Some(0));
        assert_eq!(count(b"64"), Some(64));
        assert_eq!(count(b"99999999999999999999999999"), Some(usize::MAX));
        for wrong in ["", "00", "007", "+7", "-7", "7 ", "x"] {
            assert_eq!(count(wrong.as_bytes()), None, "{wrong:?}");
        }
    }

    #[test]
    fn integers_are_shortest_and_within_64_bits() {
        assert_eq!(integer(b"-9223372036854775808"), Some(i64::MIN));
        assert_eq!(integer(b"9223372036854775807"), Some(i64::MAX));
        for wrong in ["", "-", "-0", "+1", "01", "-01", "--1", "9223372036854775808"] {
            assert_eq!(integer(wrong.as_bytes()), None, "{wrong:?}");
        }
    }

    #[test]
    fn floats_are_sixteen_lower_case_digits() {
        assert_eq!(bits(b"7ff8000000000000"), Some(0x7ff8_0000_0000_0000));
        for wrong in ["", "7FF8000000000000", "7ff800000000000", "+ff8000000000000"] {
            assert_eq!(bits(wrong.as_bytes()), None, "{wrong:?}");
        }
    }
}
