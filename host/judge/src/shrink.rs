//! The smallest input: lines are dropped from a case as long as it stays of interest.

use crate::generate::Case;

/// A smallest case of interest: no line can be dropped from either text.
pub fn shrink(case: &Case, of_interest: impl Fn(&Case) -> bool) -> Case {
    let mut smallest = case.clone();
    loop {
        let before = smallest.clone();
        for catalog in [false, true] {
            let mut size = lines(text(&smallest, catalog)).len();
            while size > 0 {
                let mut at = 0;
                while at < lines(text(&smallest, catalog)).len() {
                    let shorter = without(&smallest, catalog, at, size);
                    if shorter != smallest && of_interest(&shorter) {
                        smallest = shorter;
                    } else {
                        at += size;
                    }
                }
                size /= 2;
            }
        }
        if smallest == before {
            return smallest;
        }
    }
}

fn text(case: &Case, catalog: bool) -> &[u8] {
    if catalog { &case.catalog } else { &case.statement }
}

fn lines(text: &[u8]) -> Vec<&[u8]> {
    text.split_inclusive(|&b| b == b'\n').collect()
}

/// The case without some lines of one text.
fn without(case: &Case, catalog: bool, at: usize, size: usize) -> Case {
    let mut lines = lines(text(case, catalog));
    let end = lines.len().min(at + size);
    lines.drain(at..end);
    let shorter = lines.concat();
    match catalog {
        true => Case { catalog: shorter, statement: case.statement.clone() },
        false => Case { catalog: case.catalog.clone(), statement: shorter },
    }
}
