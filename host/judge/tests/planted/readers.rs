//! Faults of the two readings, the proved one and the host's own: either is noticed by the other.

use judge::generate::damaged;
use judge::reading::{Tally, Verdict, compare, compare_answer};
use reader::{Answer, Kind, Reader};
use texts::Text;

use super::{Named, cases, expect_noticed};

type Fault = fn(&mut Answer);

fn read(answer: &mut Answer, alter: impl Fn(&mut reader::Read)) {
    if let Answer::Read(read) = answer {
        alter(read);
    }
}

fn refused(answer: &mut Answer, alter: impl Fn(&mut texts::Refusal)) {
    if let Answer::Refused(refusal) = answer {
        alter(refusal);
    }
}

const FAULTS: [Named<Fault>; 8] = [
    ("a cell more is read", |answer| read(answer, |read| read.cells += 1)),
    ("a table more is read", |answer| read(answer, |read| read.tables += 1)),
    ("every statement is read as DROP", |answer| read(answer, |read| read.kind = Kind::Drop)),
    ("reading refuses a line later", |answer| refused(answer, |refusal| refusal.line += 1)),
    ("reading refuses a line earlier", |answer| {
        refused(answer, |refusal| refusal.line = refusal.line.saturating_sub(1));
    }),
    ("reading refuses with 2 alone", |answer| refused(answer, |refusal| refusal.number = 2)),
    ("reading refuses in the statement alone", |answer| {
        refused(answer, |refusal| refusal.text = Text::Statement);
    }),
    ("reading takes what it refuses", |answer| {
        if matches!(answer, Answer::Refused(_)) {
            *answer = Answer::Read(reader::Read { kind: Kind::Drop, cells: 0, tables: 1 });
        }
    }),
];

#[test]
#[cfg_attr(not(reading), ignore = "`tools/build reader_host` was not run")]
fn faults_of_reading_are_noticed() {
    let mut cases = cases(300);
    cases.extend((0..1_000).map(|number| damaged(45, number)));
    let mut reader = Reader::default();
    for (what, fault) in FAULTS {
        expect_noticed(what, &cases, 10, |case| {
            let right = reader.read(&case.catalog, &case.statement);
            let mut answer = right;
            fault(&mut answer);
            (answer != right, matches!(compare_answer(answer, case), Verdict::Differ(_)))
        });
    }
}

/// Where the reading is not linked, nothing is compared, and the tally says so.
#[test]
fn a_reading_that_is_not_there_is_noticed() {
    let mut tally = Tally::default();
    cases(10).iter().for_each(|case| tally.add("case", compare_answer(Answer::Unavailable, case)));
    assert_eq!((tally.agreed(), tally.differ()), (0, 0));
    if reader::AVAILABLE {
        let mut reader = Reader::default();
        cases(10).iter().for_each(|case| tally.add("case", compare(&mut reader, case)));
        assert!(tally.agreed() >= 10);
    }
}
