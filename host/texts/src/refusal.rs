/// One of the two texts.
#[derive(Clone, Copy, Debug, PartialEq, Eq)]
pub enum Text {
    Catalog,
    Statement,
}

impl Text {
    /// The word that a printed refusal has for the text.
    pub fn word(self) -> &'static str {
        match self {
            Text::Catalog => "catalog",
            Text::Statement => "statement",
        }
    }
}

/// A refusal: its number in document 01, the text, and the line of the record where it arose (0 if none).
#[derive(Clone, Copy, Debug, PartialEq, Eq)]
pub struct Refusal {
    pub number: u8,
    pub text: Text,
    pub line: usize,
}

impl Refusal {
    /// A refusal at a line of the statement.
    pub fn in_statement(number: u8, line: usize) -> Self {
        Refusal { number, text: Text::Statement, line }
    }

    /// The refusal as the planning program prints it.
    pub fn printed(self) -> Vec<u8> {
        format!("refused\t{}\t{}\t{}\n", self.number, self.text.word(), self.line).into_bytes()
    }
}
