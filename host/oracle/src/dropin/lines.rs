//! The lines of a printed plan, field by field.

use std::str::FromStr;

/// The fields of one line that are left.
pub type Fields<'a> = &'a [&'a str];

/// The fields of each line of a printed plan. The error says that it is not UTF-8 or not closed.
pub fn lines(printed: &[u8]) -> Result<Vec<Vec<&str>>, String> {
    let text = std::str::from_utf8(printed).map_err(|error| error.to_string())?;
    let body = text.strip_suffix('\n').ok_or("the last line is not closed")?;
    Ok(body.split('\n').map(|line| line.split('\t').collect()).collect())
}

pub fn number<T: FromStr>(field: &str) -> Result<T, String> {
    field.parse().map_err(|_| format!("{field:?} is no number"))
}

/// The error of a line whose fields are not as they should be.
pub fn unknown<T>(fields: Fields) -> Result<T, String> {
    Err(format!("the fields {fields:?}"))
}
