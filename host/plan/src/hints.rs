//! What may help where a text is refused: mistakes that cannot be seen in an editor.

use planner::{Reason, Refusal};

/// The most characters that are shown of a record.
const MOST_SHOWN: usize = 200;

/// A record with its tabs, and whatever else cannot be seen, written out.
pub fn visible(record: &[u8]) -> String {
    let whole = String::from_utf8_lossy(record).escape_debug().to_string();
    if whole.chars().count() <= MOST_SHOWN {
        return whole;
    }
    let start: String = whole.chars().take(MOST_SHOWN).collect();
    format!("{start} .. ({} bytes)", record.len())
}

/// The hints for a refusal at a record of a text.
pub fn of(refusal: &Refusal, record: Option<&[u8]>, text: &[u8]) -> Vec<&'static str> {
    let mut hints = Vec::new();
    if text.windows(2).any(|pair| pair == b"\r\n") {
        hints.push(
            "the lines end in CR LF; a line ends in LF alone, and the CR counts as part of the last field",
        );
    }
    if refusal.reason != Reason::WrongRecord {
        return hints;
    }
    if record.is_some_and(|record| record.contains(&b' ') && !record.starts_with(b"text\t")) {
        hints.push("fields are parted by tabs, and this line has blanks");
    }
    if record.is_some() && !text.ends_with(b"\n") && is_last(refusal.line, text) {
        hints.push("the last line has no LF");
    }
    hints
}

/// Whether a line of a text without an LF at its end is the last.
fn is_last(line: u32, text: &[u8]) -> bool {
    text.iter().filter(|byte| **byte == b'\n').count() + 1 == line as usize
}
