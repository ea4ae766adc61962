//! The proved reading of both texts (crate `reader_host`), linked from its static library.
//!
//! Where the library was not at hand when this crate was built, [`AVAILABLE`] is false and [`Reader::read`] always gives
//! [`Answer::Unavailable`].

#[cfg(reading)]
mod linked;

#[cfg(reading)]
pub use linked::Reader;

use texts::{Refusal, Statement};

/// Whether the reading was linked.
pub const AVAILABLE: bool = cfg!(reading);

/// What reading two texts answers.
#[derive(Clone, Copy, Debug, PartialEq, Eq)]
pub enum Answer {
    Read(Read),
    Refused(Refusal),
    /// The reading is not linked.
    Unavailable,
}

/// What was read: the statement's kind, its expression cells, and the catalog's tables.
#[derive(Clone, Copy, Debug, PartialEq, Eq)]
pub struct Read {
    pub kind: Kind,
    pub cells: usize,
    pub tables: usize,
}

/// The kinds of statements that can be planned, by their numbers in a plan (docs/PLAN.md).
#[derive(Clone, Copy, Debug, PartialEq, Eq, PartialOrd, Ord)]
pub enum Kind {
    Select = 1,
    Create = 2,
    Drop = 3,
    Delete = 4,
    Insert = 5,
    Update = 6,
}

impl Kind {
    pub const ALL: [Kind; 6] =
        [Kind::Select, Kind::Create, Kind::Drop, Kind::Delete, Kind::Insert, Kind::Update];

    /// The kind of a statement; none for `other`.
    pub fn of(statement: &Statement) -> Option<Kind> {
        match statement {
            Statement::Select(_) => Some(Kind::Select),
            Statement::Create { .. } => Some(Kind::Create),
            Statement::Drop { .. } => Some(Kind::Drop),
            Statement::Delete { .. } => Some(Kind::Delete),
            Statement::Insert { .. } => Some(Kind::Insert),
            Statement::Update { .. } => Some(Kind::Update),
            Statement::Other { .. } => None,
        }
    }
}

/// A reader that is not linked.
#[cfg(not(reading))]
#[derive(Default)]
pub struct Reader(());

#[cfg(not(reading))]
impl Reader {
    /// Reads a catalog and a statement.
    pub fn read(&mut self, _: &[u8], _: &[u8]) -> Answer {
        Answer::Unavailable
    }
}
