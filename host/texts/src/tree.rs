//! The tree of a plan in one canonical form, to which the Rust's plan and a printed plan are both brought.

use std::fmt;

use crate::Literal;

/// A word of this project, a name or text of the input, or a list that begins with a word.
#[derive(Clone, Debug, PartialEq, Eq)]
pub enum Tree {
    Word(String),
    Bytes(Vec<u8>),
    List(&'static str, Vec<Tree>),
}

impl Tree {
    pub fn word(word: impl fmt::Display) -> Tree {
        Tree::Word(word.to_string())
    }

    pub fn bytes(bytes: impl Into<Vec<u8>>) -> Tree {
        Tree::Bytes(bytes.into())
    }

    pub fn list(head: &'static str, parts: impl Into<Vec<Tree>>) -> Tree {
        Tree::List(head, parts.into())
    }

    /// `(as ALIAS)` where there is one.
    pub fn alias(alias: Option<impl Into<Vec<u8>>>) -> Option<Tree> {
        alias.map(|alias| Tree::list("as", [Tree::bytes(alias)]))
    }

    /// A value. All NaNs are one.
    pub fn literal(literal: &Literal) -> Tree {
        match literal {
            Literal::Null => Tree::word("null"),
            Literal::Bool(value) => Tree::list("bool", [Tree::word(value)]),
            Literal::Int(value) => Tree::list("int", [Tree::word(value)]),
            Literal::Float(_) if literal.is_nan() => Tree::list("float", [Tree::word("nan")]),
            Literal::Float(bits) => Tree::list("float", [Tree::word(format!("{bits:016x}"))]),
            Literal::Text(bytes) => Tree::list("text", [Tree::bytes(bytes.clone())]),
        }
    }
}

impl fmt::Display for Tree {
    fn fmt(&self, f: &mut fmt::Formatter<'_>) -> fmt::Result {
        match self {
            Tree::Word(word) => f.write_str(word),
            Tree::Bytes(bytes) => write!(f, "\"{}\"", bytes.escape_ascii()),
            Tree::List(head, parts) => {
                write!(f, "({head}")?;
                parts.iter().try_for_each(|part| write!(f, " {part}"))?;
                f.write_str(")")
            }
        }
    }
}
