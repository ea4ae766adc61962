//! Comparison of a printed answer with the Rust planner's.

mod size;
mod tally;
mod widest;

use std::fmt;

use oracle::Answer;
use texts::limits::SCOPE_COLUMNS;
use texts::{Refusal, Texts, read};

use crate::generate::Case;
use crate::listing::{self, Printed};
use crate::predict::predict;
use crate::{traps, worked_out};

pub use size::is_too_large;
pub use tally::Tally;

/// What a comparison comes to.
#[derive(Clone, Debug, PartialEq)]
pub enum Verdict {
    /// Both accept with the same tree, or both refuse with the same number.
    Agree(Kind),
    /// Document 01 puts the case outside the equality, or the Rust cannot be run on it.
    Apart(Kind, Reason),
    Differ(String),
}

/// The words of the statements that are planned.
pub const STATEMENTS: [&str; 6] = ["select", "create", "drop", "delete", "insert", "update"];

/// What was printed: a plan of a kind of statement, or a refusal by number.
#[derive(Clone, Copy, Debug, PartialEq, Eq, PartialOrd, Ord)]
pub enum Kind {
    Planned(&'static str),
    Refused(u8),
}

/// Why a case is not held to the Rust's answer.
#[derive(Clone, Copy, Debug, PartialEq, Eq, PartialOrd, Ord)]
pub enum Reason {
    /// The texts are refused with 2, 3 or 4, as the host's own reading refuses them.
    Reading,
    /// Refusal 3 in planning, 28 where an operator is not worked out, and 29, which the Rust does not have.
    NotOfTheRust,
    /// The Rust traps where document 01 has refusal 25.
    Trap,
    NotUtf8,
    /// The unshared tree of the Rust's expressions is too large.
    TooLarge,
    /// The Rust's sources are not at hand.
    NoSources,
}

impl Kind {
    /// The kind of a printed answer, by its first line.
    pub fn of(printed: &[u8]) -> Option<Kind> {
        let head = printed.split(|&b| b == b'\n').next()?;
        let mut fields = head.split(|&b| b == b'\t');
        let (word, kind) = (fields.next()?, std::str::from_utf8(fields.next()?).ok()?);
        match word {
            b"plan" => STATEMENTS.into_iter().find(|known| *known == kind).map(Kind::Planned),
            b"refused" => kind.parse().ok().map(Kind::Refused),
            _ => None,
        }
    }
}

impl fmt::Display for Kind {
    fn fmt(&self, f: &mut fmt::Formatter<'_>) -> fmt::Result {
        match self {
            Kind::Planned(kind) => f.pad(&format!("{kind} planned")),
            Kind::Refused(number) => f.pad(&format!("refused {number:>2}")),
        }
    }
}

impl fmt::Display for Reason {
    fn fmt(&self, f: &mut fmt::Formatter<'_>) -> fmt::Result {
        f.write_str(match self {
            Reason::Reading => "as the host reads the texts",
            Reason::NotOfTheRust => "not of the Rust",
            Reason::Trap => "the Rust traps",
            Reason::NotUtf8 => "not UTF-8",
            Reason::TooLarge => "the Rust's tree is too large",
            Reason::NoSources => "no sources",
        })
    }
}

/// Compares what was printed of a case with the prediction, byte by byte, and with the Rust planner's answer.
pub fn compare_exactly(case: &Case, printed: &[u8]) -> Verdict {
    let expected = predict(&case.catalog, &case.statement).listing;
    match compare(case, printed) {
        Verdict::Differ(message) => Verdict::Differ(message),
        _ if expected != printed => Verdict::Differ(format!(
            "printed {}\n   predicted {}",
            printed.escape_ascii(),
            expected.escape_ascii()
        )),
        verdict => verdict,
    }
}

/// Compares what was printed of a case with the host's own reading and with the Rust planner's answer.
pub fn compare(case: &Case, printed: &[u8]) -> Verdict {
    let Some(kind) = Kind::of(printed) else {
        return Verdict::Differ("the printed answer is neither a plan nor a refusal".to_string());
    };
    match (read(&case.catalog, &case.statement), kind) {
        (Err(refusal), _) if printed == refusal.printed() => Verdict::Apart(kind, Reason::Reading),
        (Err(Refusal { number, text, line }), _) => Verdict::Differ(format!(
            "printed {}, but reading refuses with {number} at line {line} of the {}",
            printed.escape_ascii(),
            text.word()
        )),
        (Ok(_), Kind::Refused(1 | 2 | 4)) => {
            Verdict::Differ(format!("printed {}, but the texts are good", printed.escape_ascii()))
        }
        (Ok(texts), _) if is_too_large(&texts) => Verdict::Apart(kind, Reason::TooLarge),
        (Ok(texts), _) => match listing::read(printed) {
            Ok(printed) => compare_answer(kind, &printed, &texts, &oracle::answer(&texts)),
            Err(error) => Verdict::Differ(format!("the printed answer: {error}")),
        },
    }
}

/// Compares what was printed of texts that are read with the Rust's answer to them.
pub fn compare_answer(kind: Kind, printed: &Printed, texts: &Texts, answer: &Answer) -> Verdict {
    let differ = |what: &str| Verdict::Differ(format!("printed {kind}{what}\n   Rust {}", said(answer)));
    let wide = matches!(answer, Answer::Given(tree) if widest::columns(tree, &texts.tables) > SCOPE_COLUMNS);
    match (printed, answer) {
        (_, Answer::Unavailable) => return Verdict::Apart(kind, Reason::NoSources),
        (_, Answer::NotUtf8) => return Verdict::Apart(kind, Reason::NotUtf8),
        (Printed::Refused { number: 3, .. }, Answer::Given(_)) if !wide => {
            return differ(", but nothing has too many columns");
        }
        // Which of two refusals comes first, the Rust cannot say: it has no 3.
        (Printed::Refused { number: 3, .. }, _) => return Verdict::Apart(kind, Reason::NotOfTheRust),
        (_, _) if wide => return differ(", but 3 is due: too many columns"),
        _ => {}
    }
    match (printed, worked_out::refused_at(texts)) {
        (Printed::Refused { number: 28, text, line }, Some(due)) if text == "statement" && *line == due => {
            return Verdict::Apart(kind, Reason::NotOfTheRust);
        }
        (_, Some(due)) => return differ(&format!(", but 28 is due at line {due}")),
        (Printed::Refused { number: 28, .. }, None) => {
            return differ(", but the Rust meets no sqrt, like or pow whose operands call for it");
        }
        (_, None) => {}
    }
    match (printed, answer) {
        (Printed::Refused { number: 29, .. }, Answer::Trapped(message)) if traps::is_invalid_is(message) => {
            Verdict::Apart(kind, Reason::NotOfTheRust)
        }
        (Printed::Refused { number: 25, .. }, Answer::Trapped(message)) if traps::is_overflow(message) => {
            Verdict::Apart(kind, Reason::Trap)
        }
        (Printed::Refused { number, .. }, Answer::Refused { number: rust, .. }) if number == rust => {
            Verdict::Agree(kind)
        }
        (Printed::Planned(tree), Answer::Given(rust)) if tree == rust => Verdict::Agree(kind),
        (Printed::Planned(tree), Answer::Given(_)) => differ(&format!(" as {tree}")),
        _ => differ(""),
    }
}

fn said(answer: &Answer) -> String {
    match answer {
        Answer::Given(tree) => format!("{tree}"),
        Answer::Refused { number, message } => format!("refused {number} ({message})"),
        Answer::Trapped(message) => format!("trapped ({message})"),
        Answer::NotSupplied => "asked for a regular expression".to_string(),
        Answer::NotUtf8 | Answer::Unavailable => "did not run".to_string(),
    }
}
