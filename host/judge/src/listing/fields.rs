//! The lines of a printed answer, and what stands in their fields.

use texts::{Literal, Tree};

pub type Fields<'a> = Vec<&'a [u8]>;

pub fn fields(line: &[u8]) -> Fields<'_> {
    line.split(|&b| b == b'\t').collect()
}

pub struct Lines<'a> {
    pub lines: Vec<Fields<'a>>,
    pub next: usize,
}

impl<'a> Lines<'a> {
    pub fn take(&mut self) -> Result<Fields<'a>, String> {
        self.next += 1;
        self.lines.get(self.next - 1).cloned().ok_or("a line is missing".to_string())
    }

    /// Takes a line that begins with a word, and gives the fields behind it.
    pub fn take_word(&mut self, expected: &str) -> Result<Fields<'a>, String> {
        let mut fields = self.take()?;
        if fields.remove(0) != expected.as_bytes() {
            return Err(format!("line {} is no {expected} line", self.next));
        }
        Ok(fields)
    }

    /// Takes a cell's or node's line, and gives the fields behind its number.
    pub fn numbered(&mut self, kind: &str, number: usize) -> Result<Fields<'a>, String> {
        let mut fields = self.take_word(kind)?;
        if fields.len() < 2 || fields.remove(0) != number.to_string().as_bytes() {
            return Err(format!("line {} is not that of {kind} {number}", self.next));
        }
        Ok(fields)
    }

    pub fn expect_end(&self) -> Result<(), String> {
        if self.next < self.lines.len() { Err("lines are left over".to_string()) } else { Ok(()) }
    }
}

pub fn words<'a>(fields: &[&'a [u8]]) -> Result<Vec<&'a str>, String> {
    fields.iter().map(|field| word(field)).collect()
}

pub fn word(field: &[u8]) -> Result<&str, String> {
    std::str::from_utf8(field).map_err(|_| "a word that is not UTF-8".to_string())
}

pub fn decimal<T: std::str::FromStr + std::fmt::Display>(field: &str) -> Result<T, String> {
    match field.parse::<T>() {
        Ok(value) if value.to_string() == field => Ok(value),
        _ => Err(format!("{field:?} is no number in its place")),
    }
}

pub fn number(field: &[u8]) -> Result<Tree, String> {
    Ok(Tree::word(decimal::<u64>(word(field)?)?))
}

/// The value of a literal's fields.
pub fn literal(fields: &[&[u8]]) -> Option<Tree> {
    let literal = match fields {
        [b"null"] => Literal::Null,
        [b"bool", b"t"] => Literal::Bool(true),
        [b"bool", b"f"] => Literal::Bool(false),
        [b"int", digits] => Literal::Int(decimal(word(digits).ok()?).ok()?),
        [b"float", digits] => {
            let bits = u64::from_str_radix(word(digits).ok()?, 16).ok()?;
            (format!("{bits:016x}").as_bytes() == *digits).then_some(Literal::Float(bits))?
        }
        [b"text", bytes] => Literal::Text(bytes.to_vec()),
        _ => return None,
    };
    Some(Tree::literal(&literal))
}
