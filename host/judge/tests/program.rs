//! The program `read_texts`, run on texts of the most bytes that a text may have and of more, and on special texts.

use std::path::Path;
use std::time::Duration;

use judge::generate::{Case, edges, limits, pairs};
use judge::program::Program;
use judge::reading::expected;
use reader::Answer;
use texts::limits::{COLUMNS, EXPRESSIONS, TEXT_BYTES};

/// So few bytes at a time go through a pipe that a long text is read in many pieces.
const PIECE: usize = 4_000;

fn program() -> Program {
    let path = concat!(env!("CARGO_MANIFEST_DIR"), "/../../target/bin/read_texts");
    Program::new(Path::new(path), Duration::from_secs(60)).expect("`tools/build read_texts` was run")
}

/// Both texts make the program print the line, from a file and through a pipe. A blank stands for a tab.
fn prints(catalog: &[u8], statement: &[u8], line: &str) {
    let program = program();
    let case = Case { catalog: catalog.to_vec(), statement: statement.to_vec() };
    let lengths = format!("{} and {} bytes", catalog.len(), statement.len());
    for printed in [program.print(&case), program.print_piped(&case, PIECE)] {
        let printed = printed.expect("the program runs");
        assert_eq!(String::from_utf8_lossy(&printed).replace('\t', " "), format!("{line}\n"), "{lengths}");
    }
}

/// A text of so many bytes: what stands between its two ends fills it. A blank stands for a tab.
fn filled(before: &str, behind: &str, bytes: usize) -> Vec<u8> {
    let mut text = before.replace(' ', "\t").into_bytes();
    text.resize(bytes - behind.len(), b'x');
    text.extend_from_slice(behind.as_bytes());
    text
}

/// A catalog of so many bytes: a table of some columns, of which the last has a default that fills it.
fn catalog(columns: usize, bytes: usize) -> Vec<u8> {
    let others = "column a text null\nnodefault\n".repeat(columns - 1);
    filled(&format!("table t 0\n{others}column a text null\ntext "), "\n", bytes)
}

/// A statement of so many bytes: a row of some cells, of which the last is a text that fills it.
fn statement(cells: usize, bytes: usize) -> Vec<u8> {
    let others = "null\n".repeat(cells - 1);
    filled(&format!("insert t\nrow {cells}\n{others}text "), "\nend\n", bytes)
}

const SHORT: usize = 100;

#[test]
#[cfg_attr(not(program), ignore = "`tools/build read_texts` was not run")]
fn texts_of_the_most_bytes_are_read() {
    for bytes in [TEXT_BYTES - 1, TEXT_BYTES] {
        prints(&catalog(1, bytes), &statement(1, SHORT), "read insert 1 1");
        prints(&catalog(COLUMNS, bytes), &statement(1, SHORT), "read insert 1 1");
        prints(&catalog(1, SHORT), &statement(1, bytes), "read insert 1 1");
        prints(&catalog(1, SHORT), &statement(EXPRESSIONS, bytes), "read insert 512 1");
        prints(&catalog(1, bytes), &statement(1, bytes), "read insert 1 1");
    }
}

#[test]
#[cfg_attr(not(program), ignore = "`tools/build read_texts` was not run")]
fn a_text_of_more_bytes_is_refused() {
    let (short_catalog, short_statement) = (catalog(1, SHORT), statement(1, SHORT));
    for more in [1, 2, TEXT_BYTES] {
        // A whole text of the most bytes may stand in front.
        let behind = |mut whole: Vec<u8>| {
            whole.resize(TEXT_BYTES + more, b'\n');
            whole
        };
        for long in [catalog(1, TEXT_BYTES + more), behind(catalog(1, TEXT_BYTES))] {
            prints(&long, &short_statement, "refused 3 catalog 0");
            prints(&long, b"", "refused 3 catalog 0");
            prints(&long, &statement(1, TEXT_BYTES + more), "refused 3 catalog 0");
        }
        for long in [statement(1, TEXT_BYTES + more), behind(statement(1, TEXT_BYTES))] {
            prints(&short_catalog, &long, "refused 3 statement 0");
            prints(b"wrong\n", &long, "refused 3 statement 0");
            prints(&catalog(1, TEXT_BYTES), &long, "refused 3 statement 0");
        }
    }
}

#[test]
#[cfg_attr(not(program), ignore = "`tools/build read_texts` was not run")]
fn texts_of_the_most_bytes_are_refused_for_what_they_hold() {
    let (short_catalog, short_statement) = (catalog(1, SHORT), statement(1, SHORT));
    let no_line = vec![b'x'; TEXT_BYTES];
    prints(&no_line, &short_statement, "refused 2 catalog 1");
    prints(&short_catalog, &no_line, "refused 2 statement 1");
    let open_line = |mut text: Vec<u8>| {
        *text.last_mut().expect("it is not empty") = b'x';
        text
    };
    prints(&open_line(catalog(1, TEXT_BYTES)), &short_statement, "refused 2 catalog 3");
    prints(&short_catalog, &open_line(statement(1, TEXT_BYTES)), "refused 2 statement 4");
    prints(&catalog(COLUMNS + 1, TEXT_BYTES), &short_statement, "refused 3 catalog 130");
    prints(&short_catalog, &statement(EXPRESSIONS + 1, TEXT_BYTES), "refused 3 statement 515");
}

#[test]
#[cfg_attr(not(program), ignore = "`tools/build read_texts` was not run")]
fn special_texts_are_printed_as_the_host_reads_them() {
    for known in limits::all().into_iter().chain(pairs::all()).chain(edges::all()) {
        let line = match expected(&known.case) {
            Answer::Read(read) => {
                let kind = format!("{:?}", read.kind).to_lowercase();
                format!("read\t{kind}\t{}\t{}\n", read.cells, read.tables).into_bytes()
            }
            Answer::Refused(refusal) => refusal.printed(),
            Answer::Unavailable => unreachable!("the host's own reading is there"),
        };
        let printed = program().print(&known.case).expect("the program runs");
        assert_eq!(printed.escape_ascii().to_string(), line.escape_ascii().to_string(), "{}", known.what);
    }
}
