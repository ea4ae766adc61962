//! The proved reading of both texts held to the host's own.

mod tally;

use reader::{Answer, Kind, Read, Reader};
use texts::{Text, read};

use crate::generate::Case;

pub use tally::Tally;

/// What a comparison comes to.
#[derive(Clone, Debug, PartialEq, Eq, PartialOrd, Ord)]
pub enum Verdict {
    /// Read by both, with the same kind of statement, expression cells and tables.
    Read(Kind),
    /// Refused by both, with the same number and text, at the same line.
    Refused(u8, &'static str),
    /// The reading is not linked.
    NotCompared,
    Differ(String),
}

/// What the host's own reading answers.
pub fn expected(case: &Case) -> Answer {
    match read(&case.catalog, &case.statement) {
        Err(refusal) => Answer::Refused(refusal),
        Ok(texts) => Answer::Read(Read {
            kind: Kind::of(&texts.statement).expect("`other` is refused"),
            cells: texts.statement.expressions().into_iter().map(texts::Expr::cells).sum(),
            tables: texts.tables.len(),
        }),
    }
}

/// Compares what reading answers with what the host's own answers.
pub fn compare(reader: &mut Reader, case: &Case) -> Verdict {
    compare_answer(reader.read(&case.catalog, &case.statement), case)
}

/// Compares an answer with what the host's own reading answers.
pub fn compare_answer(answer: Answer, case: &Case) -> Verdict {
    let expected = expected(case);
    match answer {
        Answer::Unavailable => Verdict::NotCompared,
        _ if answer != expected => Verdict::Differ(format!("{answer:?}, the host {expected:?}")),
        Answer::Read(read) => Verdict::Read(read.kind),
        Answer::Refused(refusal) => Verdict::Refused(refusal.number, Text::word(refusal.text)),
    }
}
