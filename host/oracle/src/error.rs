//! Stand-in for the error module. An error keeps the format of its message, which says its kind whatever names it has.

use std::fmt;

#[derive(Clone, Debug, PartialEq)]
pub enum Error {
    InvalidData(String),
    InvalidInput {
        format: &'static str,
        message: String,
    },
    /// Something that has no full stand-in was asked for.
    NotSupplied,
}

pub type Result<T> = std::result::Result<T, Error>;

impl fmt::Display for Error {
    fn fmt(&self, f: &mut fmt::Formatter<'_>) -> fmt::Result {
        match self {
            Error::InvalidData(message) | Error::InvalidInput { message, .. } => f.write_str(message),
            Error::NotSupplied => f.write_str("not supplied"),
        }
    }
}

impl std::error::Error for Error {}

impl From<regex::Error> for Error {
    fn from(_: regex::Error) -> Self {
        Error::NotSupplied
    }
}

/// An error result for data that is not as it should be.
macro_rules! errdata {
    ($($arguments:tt)*) => {
        Err($crate::error::Error::InvalidData(format!($($arguments)*)))
    };
}

/// An error result for input that is refused.
macro_rules! errinput {
    ($format:literal $($arguments:tt)*) => {
        Err($crate::error::Error::InvalidInput {
            format: $format,
            message: format!($format $($arguments)*),
        })
    };
}

pub(crate) use {errdata, errinput};
