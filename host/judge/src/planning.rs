//! The proved planner held to the prediction and to the Rust planner.

use crate::compare::{Verdict, compare_exactly};
use crate::generate::{Case, case};
use crate::random::Random;

pub use crate::entry::{AVAILABLE, Answer, LEAST_AREA, listing, plan};

/// A planner: the proved one, or one with a fault that tests plant.
pub trait Plans: Fn(&[u8], &[u8], &mut [u32]) -> Answer {}

impl<F: Fn(&[u8], &[u8], &mut [u32]) -> Answer> Plans for F {}

/// Compares what the proved planner makes of a case with the prediction, byte by byte, and with the Rust planner. What the
/// area holds before, and how long it is, comes from the seed and the number.
pub fn compare(case: &Case, seed: u64, number: u64) -> Verdict {
    compare_by(plan, case, seed, number)
}

/// As [`compare`], of any planner.
pub fn compare_by(plan: impl Plans, case: &Case, seed: u64, number: u64) -> Verdict {
    match printed_by(plan, case, &mut Random::new(seed, number)) {
        Ok(printed) => compare_exactly(case, &printed),
        Err(message) => Verdict::Differ(message),
    }
}

/// What is printed of the proved planner's answer to a case.
pub fn printed(case: &Case, noise: &mut Random) -> Result<Vec<u8>, String> {
    printed_by(plan, case, noise)
}

/// What is printed of a planner's answer to a case, which is planned into two areas that held different numbers. The error
/// says what is wrong with the answer, or with the numbers at the end.
pub fn printed_by(plan: impl Plans, case: &Case, noise: &mut Random) -> Result<Vec<u8>, String> {
    let length = LEAST_AREA + if noise.percent(25) { noise.between(1, LEAST_AREA) } else { 0 };
    let mut area = random_area(length, noise);
    let mut other = vec![*noise.pick(&[0, 1, 7, u32::MAX]); length];
    let answer = plan(&case.catalog, &case.statement, &mut area);
    let same = plan(&case.catalog, &case.statement, &mut other);
    if answer != same {
        return Err(format!("{answer:?}, and over other numbers {same:?}"));
    }
    if let Some(place) = (0..length).find(|&place| area[place] != other[place]) {
        let (one, other) = (area[place], other[place]);
        return Err(format!("number {place} of the area is {one}, and over other numbers {other}"));
    }
    match answer {
        Answer::Planned { cells } => printed_plan(case, &area, cells),
        Answer::Refused(_) if area.iter().any(|&number| number != 0) => {
            Err(format!("{answer:?}, and the area is not zero"))
        }
        Answer::Refused(refusal) => Ok(refusal.printed()),
        Answer::Unknown(_) | Answer::Unavailable => Err(format!("{answer:?}")),
    }
}

/// An area of any numbers.
pub fn random_area(length: usize, noise: &mut Random) -> Vec<u32> {
    let mut area = Vec::with_capacity(length + 1);
    while area.len() < length {
        let bits = noise.bits();
        area.extend([bits as u32, (bits >> 32) as u32]);
    }
    area.truncate(length);
    area
}

/// The listing of the area, which has as many cells as the planner answers.
fn printed_plan(case: &Case, area: &[u32], cells: usize) -> Result<Vec<u8>, String> {
    let printed = listing(&case.catalog, &case.statement, area).map_err(|fault| fault.to_string())?;
    let listed = printed.split(|&b| b == b'\n').filter(|line| line.starts_with(b"cell\t")).count();
    let header = area[2] as usize;
    if cells == header && cells == listed {
        Ok(printed)
    } else {
        Err(format!("{cells} cells, in the header {header}, listed {listed}"))
    }
}

/// The cases of a seed, from a number on, whose statements begin with one of the words.
pub fn cases_of(seed: u64, first: u64, statements: Vec<&'static str>) -> impl Iterator<Item = (u64, Case)> {
    let is_wanted = move |case: &Case| statements.iter().any(|word| word.as_bytes() == case.word());
    (first..=u64::MAX)
        .map(move |number| (number, case(seed, number)))
        .filter(move |(_, case)| is_wanted(case))
}
