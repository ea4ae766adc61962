//! The proved reading of both texts, held to the host's own on damaged texts, and to what is known of special ones.

use judge::generate::{Known, case, damaged, edges, limits, pairs};
use judge::reading::{Tally, Verdict, compare};
use reader::{Answer, Kind, Reader};

const DAMAGED: u64 = 60_000;
const WHOLE: u64 = 20_000;

#[test]
#[cfg_attr(not(reading), ignore = "`tools/build reader_host` was not run")]
fn texts_are_read_as_the_host_reads_them() {
    let mut reader = Reader::default();
    let mut tally = Tally::default();
    for number in 0..DAMAGED {
        tally.add(&format!("damaged case {number}"), compare(&mut reader, &damaged(5, number)));
    }
    for number in 0..WHOLE {
        tally.add(&format!("case {number}"), compare(&mut reader, &case(5, number)));
    }
    println!("{tally}");
    assert!(tally.shown.is_empty(), "{:#?}", tally.shown);
    for kind in Kind::ALL {
        assert!(tally.count(&Verdict::Read(kind)) >= 100, "{kind:?} is read seldom");
    }
    for (number, text, least) in [
        (2, "catalog", 5_000),
        (3, "catalog", 100),
        (2, "statement", 20_000),
        (3, "statement", 500),
        (4, "statement", 50),
    ] {
        let count = tally.count(&Verdict::Refused(number, text));
        assert!(count >= least, "refused {number} {text} occurs {count} times");
    }
}

#[test]
#[cfg_attr(not(reading), ignore = "`tools/build reader_host` was not run")]
fn special_texts_are_read_as_the_host_reads_them() {
    let mut reader = Reader::default();
    let mut tally = Tally::default();
    for known in limits::all().into_iter().chain(pairs::all()).chain(edges::all()) {
        tally.add(known.what, compare(&mut reader, &known.case));
    }
    assert!(tally.shown.is_empty(), "{:#?}", tally.shown);
}

#[test]
#[cfg_attr(not(reading), ignore = "`tools/build reader_host` was not run")]
fn edges_are_read_as_they_are_made() {
    let mut reader = Reader::default();
    for Known { what, case, refusal } in edges::all() {
        match (reader.read(&case.catalog, &case.statement), refusal) {
            (Answer::Read(_), None) => {}
            (Answer::Refused(read), Some(refusal)) if read == refusal => {}
            (answer, known) => panic!("{what}: {answer:?}, known {known:?}"),
        }
    }
}
