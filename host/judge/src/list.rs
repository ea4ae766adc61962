//! The fixed list of answers.
//!
//! Each record is a line `case` with three byte counts, parted by tabs, and then that many bytes of catalog, statement
//! and printed answer, with nothing between them. The next record follows at once.

use crate::generate::Case;

/// A case with what is printed of it.
#[derive(Clone, Debug, PartialEq, Eq)]
pub struct Answered {
    pub case: Case,
    pub listing: Vec<u8>,
}

/// Writes a list.
pub fn write(answers: &[Answered]) -> Vec<u8> {
    let mut out = Vec::new();
    for Answered { case, listing } in answers {
        let texts = [&case.catalog, &case.statement, listing];
        let [catalog, statement, answer] = texts.map(Vec::len);
        out.extend(format!("case\t{catalog}\t{statement}\t{answer}\n").into_bytes());
        texts.iter().for_each(|text| out.extend_from_slice(text));
    }
    out
}

/// Reads a list. The error says at which record it is wrong.
pub fn read(mut bytes: &[u8]) -> Result<Vec<Answered>, String> {
    let mut answers = Vec::new();
    while !bytes.is_empty() {
        let (answer, rest) =
            record(bytes).ok_or(format!("record {} of the list is wrong", answers.len() + 1))?;
        answers.push(answer);
        bytes = rest;
    }
    Ok(answers)
}

fn record(bytes: &[u8]) -> Option<(Answered, &[u8])> {
    let end = bytes.iter().position(|&b| b == b'\n')?;
    let head = std::str::from_utf8(&bytes[..end]).ok()?;
    let counts: Vec<usize> =
        head.strip_prefix("case\t")?.split('\t').map(|count| count.parse().ok()).collect::<Option<_>>()?;
    let [catalog, statement, listing] = counts[..] else {
        return None;
    };
    let (catalog, rest) = bytes[end + 1..].split_at_checked(catalog)?;
    let (statement, rest) = rest.split_at_checked(statement)?;
    let (listing, rest) = rest.split_at_checked(listing)?;
    let case = Case { catalog: catalog.to_vec(), statement: statement.to_vec() };
    Some((Answered { case, listing: listing.to_vec() }, rest))
}

#[cfg(test)]
mod tests {
    use super::*;

    #[test]
    fn a_list_is_read_as_it_was_written() {
        let answer = |catalog: &str, statement: &str, listing: &str| Answered {
            case: Case { catalog: catalog.into(), statement: statement.into() },
            listing: listing.into(),
        };
        let answers =
            vec![answer("", "case\t1\t2\t3\n", "refused\n"), answer("table\n", "", ""), answer("", "", "")];
        assert_eq!(read(&write(&answers)), Ok(answers));
    }

    #[test]
    fn a_record_that_is_cut_off_is_named() {
        assert_eq!(read(b"case\t0\t0\t0\ncase\t0\t2\t0\nx"), Err("record 2 of the list is wrong".into()));
    }
}
