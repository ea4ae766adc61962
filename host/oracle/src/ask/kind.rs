//! The kinds of the planner's errors, by the first words of their formats.

/// The first words of each error's format that planning can give, with document 01's number. The first that fits counts.
const KINDS: [(&str, u8); 26] = [
    ("no such table", 5),
    ("duplicate table", 6),
    ("unknown table", 7),
    ("unknown column {name} in", 22),
    ("unknown column", 8),
    ("ambiguous", 9),
    ("expression must be constant", 10),
    ("column {} must be used", 11),
    ("unsupported use of *", 12),
    ("unknown function", 13),
    ("{name} takes 1", 14),
    ("aggregate functions can't", 15),
    ("SELECT * requires", 16),
    ("HAVING requires", 17),
    ("invalid offset", 18),
    ("invalid limit", 19),
    ("no primary key", 20),
    ("multiple primary keys", 21),
    ("column {name} given", 23),
    ("column {column} has no", 24),
    ("integer overflow", 25),
    ("can't divide by zero", 26),
    ("can't", 27),
    ("IS NAN can't", 27),
    // These two cannot be met: FROM is asked only where it has items, and only aggregates are built as aggregates.
    ("no from items", 0),
    ("unknown aggregate", 0),
];

/// Document 01's number for an error's format.
pub fn number(format: &str) -> Option<u8> {
    let (_, number) = KINDS.iter().find(|(words, _)| format.starts_with(words))?;
    (*number != 0).then_some(*number)
}

#[cfg(test)]
mod tests {
    use super::*;

    /// The formats of the errors of a source.
    fn formats(file: &str) -> Vec<String> {
        let path = format!("{}/src--src--sql--{file}.rs.txt", env!("TOYDB_SOURCES_FOUND"));
        let source = std::fs::read_to_string(path).expect("the build read this file");
        let calls = source.split("errinput!(").skip(1);
        calls.map(|call| call.split('"').nth(1).expect("a format").to_string()).collect()
    }

    #[test]
    fn every_error_of_planning_has_one_kind() {
        let mut met = [false; KINDS.len()];
        for file in ["planner--planner", "types--expression", "types--value"] {
            for format in formats(file) {
                let kind = KINDS.iter().position(|(words, _)| format.starts_with(words));
                met[kind.unwrap_or_else(|| panic!("no kind for {format:?}"))] = true;
            }
        }
        let unmet: Vec<&str> = (0..KINDS.len()).filter(|i| !met[*i]).map(|i| KINDS[i].0).collect();
        assert_eq!(unmet, ["no such table"], "only the stand-in for the catalog has it");
    }
}
