//! Reading and writing of the texts.

use judge::generate::case;
use texts::{read, write_catalog, write_statement};

/// Every text has one spelling: what is read is written as it stood.
#[test]
fn texts_are_written_as_they_were_read() {
    let mut accepted = 0;
    for number in 0..5_000 {
        let case = case(2, number);
        if let Ok(texts) = read(&case.catalog, &case.statement) {
            assert_eq!(write_catalog(&texts.tables), case.catalog, "catalog of case {number}");
            assert_eq!(write_statement(&texts.statement), case.statement, "statement of case {number}");
            accepted += 1;
        }
    }
    assert!(accepted > 4_000, "only {accepted} texts were read");
}
