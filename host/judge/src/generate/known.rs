//! Cases whose refusal, or that they are planned, is known from how they are made.

use texts::Refusal;

use super::Case;

/// A case whose refusal is known, or that is known to be planned.
pub struct Known {
    pub what: &'static str,
    pub case: Case,
    pub refusal: Option<Refusal>,
}

/// A text that is written line by line.
#[derive(Default)]
pub struct Lines {
    pub text: String,
    pub lines: usize,
}

impl Lines {
    pub fn of(lines: &[&str]) -> Self {
        let mut text = Lines::default();
        lines.iter().for_each(|line| text.push(line));
        text
    }

    /// Adds a line. A blank stands for a tab.
    pub fn push(&mut self, line: &str) {
        self.text.push_str(&line.replace(' ', "\t"));
        self.text.push('\n');
        self.lines += 1;
    }

    /// Adds a line, and gives its number.
    pub fn add(&mut self, line: &str) -> usize {
        self.push(line);
        self.lines
    }

    pub fn end(mut self) -> Vec<u8> {
        self.push("end");
        self.text.into_bytes()
    }
}

/// A catalog with tables of some widths, named t0, t1 .., whose columns are c00, c01 ..
pub fn catalog(widths: &[usize]) -> Vec<u8> {
    let mut text = Lines::default();
    for (table, width) in widths.iter().enumerate() {
        text.push(&format!("table t{table} 0"));
        for column in 0..*width {
            text.push(&format!("column c{column:02} int null"));
            text.push("nodefault");
        }
    }
    text.text.into_bytes()
}

pub fn planned(what: &'static str, catalog: Vec<u8>, statement: Vec<u8>) -> Known {
    Known { what, case: Case { catalog, statement }, refusal: None }
}

/// A case that is refused at a line of the statement.
pub fn refused(what: &'static str, number: u8, line: usize, catalog: Vec<u8>, statement: Vec<u8>) -> Known {
    let refusal = Some(Refusal::in_statement(number, line));
    Known { what, case: Case { catalog, statement }, refusal }
}

/// Refused with 3 at the line if there is one, else planned.
pub fn limited(what: &'static str, line: Option<usize>, catalog: Vec<u8>, statement: Vec<u8>) -> Known {
    match line {
        Some(line) => refused(what, 3, line, catalog, statement),
        None => planned(what, catalog, statement),
    }
}
