//! Generated cases: pairs of texts over document 01's domain, each fixed by a seed and a number.

mod constant;
mod create;
mod damage;
pub mod edges;
mod expression;
mod known;
pub mod limits;
mod names;
mod other;
pub mod pairs;
mod select;
mod wide;

use std::sync::OnceLock;

use texts::{Statement, Table, write_catalog, write_statement};

use crate::random::Random;

pub use known::Known;
pub(crate) use known::{Lines, catalog};

/// A catalog and a statement.
#[derive(Clone, Debug, PartialEq, Eq)]
pub struct Case {
    pub catalog: Vec<u8>,
    pub statement: Vec<u8>,
}

impl Case {
    /// The statement's first word, which is that of its kind.
    pub fn word(&self) -> &[u8] {
        self.statement.split(|&b| b == b'\t' || b == b'\n').next().unwrap_or_default()
    }
}

/// The case of a number under a seed.
pub fn case(seed: u64, number: u64) -> Case {
    let mut maker = Maker::new(Random::new(seed, number));
    let mut case = maker.case();
    match maker.random.between(0, 99) {
        0..8 => maker.damage(&mut case),
        8 => case = maker.at_limit(),
        9 => case = maker.texts_of(Maker::wide),
        _ => {}
    }
    case
}

/// The damaged case of a number under a seed. One of ten stands at a limit or one past it before it is damaged.
pub fn damaged(seed: u64, number: u64) -> Case {
    let mut maker = Maker::new(Random::new(seed, number));
    let mut case = if maker.random.percent(10) { maker.at_limit() } else { maker.case() };
    maker.damage(&mut case);
    case
}

/// Makes the parts of a case by random choices.
struct Maker {
    random: Random,
    tables: Vec<Table>,
    /// How often, of a hundred, a choice is made that is likely to be refused.
    mistakes: usize,
}

impl Maker {
    fn new(mut random: Random) -> Self {
        let mistakes = random.weighted(&[(55, 0), (25, 3), (15, 12), (5, 40)]);
        let tables = names::tables(&mut random);
        Maker { random, tables, mistakes }
    }

    /// A case with both texts whole.
    fn case(&mut self) -> Case {
        let statement = self.random.weighted(&[
            (48, Maker::select as fn(&mut Maker) -> Statement),
            (12, Maker::update),
            (10, Maker::insert),
            (8, Maker::delete),
            (16, Maker::create),
            (2, Maker::drop),
            (1, Maker::other),
        ]);
        self.texts_of(statement)
    }

    /// A case with both texts whole, of a kind of statement.
    fn texts_of(&mut self, statement: fn(&mut Maker) -> Statement) -> Case {
        let statement = statement(self);
        Case { catalog: write_catalog(&self.tables), statement: write_statement(&statement) }
    }

    /// A case at a limit or one past it.
    fn at_limit(&mut self) -> Case {
        static LIMITS: OnceLock<Vec<Known>> = OnceLock::new();
        self.random.pick(LIMITS.get_or_init(limits::all)).case.clone()
    }

    /// Whether to make a choice that is likely to be refused.
    fn mistake(&mut self) -> bool {
        self.random.percent(self.mistakes)
    }
}
