use crate::{Literal, Name};

#[derive(Clone, Copy, Debug, PartialEq, Eq)]
pub enum DataType {
    Bool,
    Int,
    Float,
    Text,
}

impl DataType {
    pub const ALL: [DataType; 4] = [DataType::Bool, DataType::Int, DataType::Float, DataType::Text];

    /// The word of the texts for the type.
    pub fn word(self) -> &'static str {
        match self {
            DataType::Bool => "bool",
            DataType::Int => "int",
            DataType::Float => "float",
            DataType::Text => "text",
        }
    }

    pub(crate) fn of(word: &[u8]) -> Option<Self> {
        Self::ALL.into_iter().find(|datatype| datatype.word().as_bytes() == word)
    }
}

/// A table of the catalog.
#[derive(Clone, Debug, PartialEq)]
pub struct Table {
    pub name: Name,
    pub key: usize,
    pub columns: Vec<Column>,
}

/// A column of a table of the catalog.
#[derive(Clone, Debug, PartialEq)]
pub struct Column {
    pub name: Name,
    pub datatype: DataType,
    pub nullable: bool,
    pub default: Option<Literal>,
}
