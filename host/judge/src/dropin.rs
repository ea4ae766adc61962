//! The proved planner in the place of toydb's own: the same `Plan` of the same statement and tables, or both refuse.

use oracle::DropIn;
use texts::{Texts, read};

use crate::compare::{Kind, Reason, STATEMENTS, Verdict, compare as compare_printed, is_too_large};
use crate::generate::{Case, case};
use crate::planning::{Plans, plan, printed_by};
use crate::predict::predict;
use crate::random::Random;

/// What stands between toydb and the planner, which tests plant faults into: what is made of the two texts before they
/// are planned, and of what is printed.
pub struct Between<'a> {
    pub texts: &'a dyn Fn(Case) -> Case,
    pub printed: &'a dyn Fn(Vec<u8>) -> Vec<u8>,
}

/// Compares the plans that toydb's planner and the proved one make of a case. What the area held comes from the seed and
/// the number.
pub fn compare(case: &Case, seed: u64, number: u64) -> Verdict {
    compare_by(plan, &Between { texts: &|case| case, printed: &|printed| printed }, case, seed, number)
}

/// As [`compare`], of any planner, with what stands between.
pub fn compare_by(plan: impl Plans, between: &Between, case: &Case, seed: u64, number: u64) -> Verdict {
    let apart = |reason| Verdict::Apart(kind(case), reason);
    let texts = match read(&case.catalog, &case.statement) {
        Ok(texts) if is_too_large(&texts) => return apart(Reason::TooLarge),
        Ok(texts) => texts,
        Err(_) => return apart(Reason::Reading),
    };
    let mut adapted = None;
    let outcome = oracle::drop_in(&texts, |catalog, statement| {
        let texts = Case { catalog: catalog.to_vec(), statement: statement.to_vec() };
        let case = adapted.insert((between.texts)(texts));
        printed_by(plan, case, &mut Random::new(seed, number)).map(between.printed)
    });
    match outcome {
        DropIn::NotUtf8 => apart(Reason::NotUtf8),
        DropIn::Unavailable => apart(Reason::NoSources),
        DropIn::Differ(message) => Verdict::Differ(message),
        _ if adapted.as_ref() != Some(case) => {
            Verdict::Differ(format!("the adapter's texts are {adapted:?}"))
        }
        DropIn::Same => Verdict::Agree(Kind::Planned(word(&texts))),
        DropIn::Refused(printed) => compare_printed(case, &printed),
    }
}

/// The kind of a case that is not compared: that of its prediction.
fn kind(case: &Case) -> Kind {
    Kind::of(&predict(&case.catalog, &case.statement).listing).expect("a prediction has a kind")
}

fn word(texts: &Texts) -> &'static str {
    use texts::Statement::*;
    let position = match texts.statement {
        Select(_) => 0,
        Create { .. } => 1,
        Drop { .. } => 2,
        Delete { .. } => 3,
        Insert { .. } => 4,
        Update { .. } => 5,
        Other { .. } => unreachable!("`other` is refused by reading"),
    };
    STATEMENTS[position]
}

/// The cases of a seed, from a number on, that are statements of toydb's: their texts are read.
pub fn cases(seed: u64, first: u64) -> impl Iterator<Item = (u64, Case)> {
    let is_read = |case: &Case| read(&case.catalog, &case.statement).is_ok();
    (first..=u64::MAX).map(move |number| (number, case(seed, number))).filter(move |(_, case)| is_read(case))
}
