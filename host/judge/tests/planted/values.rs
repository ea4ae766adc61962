//! Faults of the operators on values, noticed by the Rust's.

use judge::values::{Pair, Verdict, compare_answers, edge_pairs, pair};
use texts::Literal;
use values::{Operation, Worked, work_out};

use super::Named;

type Fault = fn(Worked) -> Worked;

fn value(worked: Worked, alter: impl Fn(Literal) -> Literal) -> Worked {
    match worked {
        Worked::Value(value) => Worked::Value(alter(value)),
        refused => refused,
    }
}

fn renumber(worked: Worked, from: u32, to: u32) -> Worked {
    if worked == Worked::Refused(from) { Worked::Refused(to) } else { worked }
}

const FAULTS: [Named<Fault>; 9] = [
    ("28 for every operator", |_| Worked::Refused(28)),
    ("25 for every operator", |_| Worked::Refused(25)),
    ("27 for 28", |worked| renumber(worked, 28, 27)),
    ("26 for 25", |worked| renumber(worked, 25, 26)),
    ("27 for 26", |worked| renumber(worked, 26, 27)),
    ("null for 27", |worked| match worked {
        Worked::Refused(27) => Worked::Value(Literal::Null),
        worked => worked,
    }),
    ("another NaN", |worked| {
        value(worked, |value| if value.is_nan() { Literal::Float(0x7ff8_0000_0000_0001) } else { value })
    }),
    ("0.0 for -0.0", |worked| {
        value(worked, |value| if value == Literal::Float(1 << 63) { Literal::Float(0) } else { value })
    }),
    ("null for a truth value", |worked| {
        value(worked, |value| if matches!(value, Literal::Bool(_)) { Literal::Null } else { value })
    }),
];

#[test]
#[cfg_attr(not(operators), ignore = "`tools/build value_host` was not run")]
#[cfg_attr(all(operators, not(planner)), ignore = "the Rust planner's sources are not at hand")]
fn faults_of_the_operators_are_noticed() {
    let pairs: Vec<Pair> = edge_pairs().step_by(37).chain((0..300).map(|number| pair(48, number))).collect();
    for (what, fault) in FAULTS {
        let mut altered = 0;
        for (pair, operation) in pairs.iter().flat_map(|pair| Operation::all().map(move |of| (pair, of))) {
            let operands = &pair[..operation.arity()];
            let right = work_out(operation, operands);
            let worked = fault(right.clone());
            let differs = matches!(compare_answers(operation, operands, &worked), Verdict::Differ(_));
            assert_eq!(differs, worked != right, "{what}: {} {operands:?}", operation.word());
            altered += usize::from(differs);
        }
        println!("{what}: noticed {altered} times");
        assert!(altered >= 3, "{what} alters {altered} answers");
    }
}
