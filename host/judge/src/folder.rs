//! Cases in a folder: files NUMBER.catalog, NUMBER.statement and NUMBER.expected, and NUMBER.listing for what was printed.

use std::fs;
use std::path::Path;

use crate::generate::Case;

/// A case of a folder.
pub struct Filed {
    pub number: String,
    pub case: Case,
    /// What was printed of it, if something was.
    pub listing: Option<Vec<u8>>,
}

/// Writes a case with what is expected to be printed.
pub fn write(folder: &Path, number: u64, case: &Case, expected: &[u8]) -> Result<(), String> {
    for (kind, bytes) in
        [("catalog", &case.catalog[..]), ("statement", &case.statement), ("expected", expected)]
    {
        let path = folder.join(format!("{number:07}.{kind}"));
        fs::write(&path, bytes).map_err(|error| format!("{}: {error}", path.display()))?;
    }
    Ok(())
}

/// Reads the cases of a folder, in the order of their numbers.
pub fn read(folder: &Path) -> Result<Vec<Filed>, String> {
    let named = |error| format!("{}: {error}", folder.display());
    let mut numbers = Vec::new();
    for entry in fs::read_dir(folder).map_err(named)? {
        let name = entry.map_err(named)?.file_name();
        if let Some(number) = name.to_str().and_then(|name| name.strip_suffix(".statement")) {
            numbers.push(number.to_string());
        }
    }
    if numbers.is_empty() {
        return Err(format!("{}: no cases in this folder", folder.display()));
    }
    numbers.sort();
    numbers.into_iter().map(|number| read_case(folder, number)).collect()
}

fn read_case(folder: &Path, number: String) -> Result<Filed, String> {
    let read = |kind: &str| {
        let path = folder.join(format!("{number}.{kind}"));
        fs::read(&path).map_err(|error| format!("{}: {error}", path.display()))
    };
    let case = Case { catalog: read("catalog")?, statement: read("statement")? };
    let listing =
        if folder.join(format!("{number}.listing")).exists() { Some(read("listing")?) } else { None };
    Ok(Filed { number, case, listing })
}
