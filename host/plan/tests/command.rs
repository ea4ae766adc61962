//! The command, run: what it prints, its exit status, and that nothing makes it panic.

#![cfg(all(target_arch = "x86_64", target_os = "linux"))]

use std::ffi::{OsStr, OsString};
use std::io::Write;
use std::os::unix::ffi::OsStrExt;
use std::path::{Path, PathBuf};
use std::process::{Command, Output, Stdio};
use std::{env, fs};

const EXAMPLES: [(&str, i32); 5] = [("p1", 0), ("star", 0), ("right-join", 0), ("groups", 0), ("refusal", 1)];

fn example(name: &str) -> PathBuf {
    Path::new(env!("CARGO_MANIFEST_DIR")).join("../../examples").join(name)
}

fn catalog() -> PathBuf {
    example("heap.catalog")
}

/// The command with its arguments.
fn command(arguments: &[&dyn AsRef<OsStr>]) -> Command {
    let mut command = Command::new(env!("CARGO_BIN_EXE_plan"));
    command.args(arguments.iter().map(|argument| argument.as_ref())).stdin(Stdio::null());
    command
}

fn run(arguments: &[&dyn AsRef<OsStr>]) -> Output {
    command(arguments).output().expect("the command runs")
}

/// Runs it with a text on standard input, which it may leave unread.
fn run_over(text: &[u8], arguments: &[&dyn AsRef<OsStr>]) -> Output {
    let mut child = command(arguments)
        .stdin(Stdio::piped())
        .stdout(Stdio::piped())
        .stderr(Stdio::piped())
        .spawn()
        .expect("the command runs");
    let mut input = child.stdin.take().expect("its input is a pipe");
    let _ = input.write_all(text);
    drop(input);
    child.wait_with_output().expect("the command ends")
}

/// Exit status, standard output and standard error.
fn said(output: &Output) -> (Option<i32>, String, String) {
    let text = |bytes: &[u8]| String::from_utf8_lossy(bytes).into_owned();
    (output.status.code(), text(&output.stdout), text(&output.stderr))
}

#[test]
fn examples_have_their_stored_plans() {
    for (name, status) in EXAMPLES {
        let statement = example(&format!("{name}.statement"));
        let stored = fs::read(example(&format!("{name}.plan"))).expect("a stored plan");
        let output = run(&[&catalog(), &statement]);
        assert_eq!(output.status.code(), Some(status), "{name}");
        assert_eq!(said(&output).1, String::from_utf8_lossy(&stored), "{name}");
        // The statement, and the catalog, from standard input.
        let texts = [&catalog(), &statement].map(|path| fs::read(path).expect("an example"));
        assert_eq!(run_over(&texts[1], &[&catalog(), &"-"]).stdout, stored, "{name}");
        assert_eq!(run_over(&texts[0], &[&"-", &statement]).stdout, stored, "{name}");
    }
}

#[test]
fn the_tree_and_the_area_are_shown() {
    let (status, tree, errors) = said(&run(&[&"--tree", &catalog(), &example("right-join.statement")]));
    assert_eq!((status, errors.as_str()), (Some(0), ""));
    let expected = "Projection: heap.id, turn.driver\n\
        └─ Remap: turn.heap, turn.driver, heap.id, heap.p1, heap.p2\n   \
           └─ NestedLoopJoin: outer on turn.heap = heap.id\n      \
              ├─ Scan: heap\n      \
              └─ Scan: turn\n";
    assert_eq!(tree, expected);
    let (status, area, _) = said(&run(&[&catalog(), &example("star.statement"), &"--area"]));
    assert_eq!(status, Some(0));
    let numbers: Vec<u32> = area.lines().map(|line| line.parse().expect("a number")).collect();
    let expected = [
        1, 1, 3, 2, 37, 37, 6, 1, 0, 0, 6, 1, 0, 0, 3, 1, 0, 0, 1, 5, 65_569, 6, 0, 0, 0, 6, 10, 0, 0, 0, 0,
        1, 0, 0, 2, 0, 0,
    ];
    assert_eq!(numbers, expected);
}

#[test]
fn a_refusal_is_shown_with_its_record() {
    let statement = example("refusal.statement");
    let shown = format!("{}:7: there is no such column (refusal 8)\n    col\\tp3\n", statement.display());
    let refused = |arguments: &[&dyn AsRef<OsStr>]| said(&run(arguments));
    let listed = "refused\t8\tstatement\t7\n".to_string();
    assert_eq!(refused(&[&catalog(), &statement]), (Some(1), listed, shown.clone()));
    assert_eq!(refused(&[&catalog(), &statement, &"--tree"]), (Some(1), String::new(), shown.clone()));
    assert_eq!(refused(&[&catalog(), &statement, &"--area"]), (Some(1), String::new(), shown));
}

/// What is said on standard error of a statement, or catalog, on standard input.
fn said_of(text: &[u8], is_catalog: bool) -> String {
    let output = if is_catalog {
        run_over(text, &[&"-", &example("p1.statement")])
    } else {
        run_over(text, &[&catalog(), &"-"])
    };
    assert_eq!(output.status.code(), Some(1));
    said(&output).2
}

#[test]
fn mistakes_that_cannot_be_seen_get_a_hint() {
    let blanks = "hint: fields are parted by tabs, and this line has blanks\n";
    let cr = "hint: the lines end in CR LF; a line ends in LF alone, and the CR counts as part of the last field\n";
    let wrong = "the record is wrong, missing or left over (refusal 2)\n";
    assert_eq!(
        said_of(b"select\nitem\ncol p1\nfrom\theap\nend\n", false),
        format!("standard input:3: {wrong}    col p1\n{blanks}")
    );
    assert_eq!(
        said_of(b"table heap 0\n", true),
        format!("standard input:1: {wrong}    table heap 0\n{blanks}")
    );
    assert_eq!(
        said_of(b"select\r\nitem\r\nint\t1\r\nend\r\n", false),
        format!("standard input:1: {wrong}    select\\r\n{cr}")
    );
    // A CR within a name that is not known.
    assert_eq!(
        said_of(b"select\nitem\nint\t1\nfrom\theap\r\nend\n", false),
        format!("standard input:4: there is no such table (refusal 5)\n    from\\theap\\r\n{cr}")
    );
    assert_eq!(
        said_of(b"select\nitem\nint\t1\nend", false),
        format!("standard input:4: {wrong}    end\nhint: the last line has no LF\n")
    );
    // No hint where the blank is a text's own, or nothing is there to see.
    let line = "standard input:4: ";
    assert_eq!(
        said_of(b"select\nitem\nint\t1\ntext\ta b\nend\n", false),
        format!("{line}{wrong}    text\\ta b\n")
    );
    assert_eq!(
        said_of(b"select\nitem\ncol\tp 3\nfrom\theap\nend\n", false),
        "standard input:3: there is no such column (refusal 8)\n    col\\tp 3\n"
    );
    assert_eq!(said_of(b"select\nitem\nint\t1\n", false), format!("{line}{wrong}    the text ends here\n"));
    assert_eq!(said_of(b"", false), format!("standard input:1: {wrong}    the text ends here\n"));
}

#[test]
fn long_texts_and_records_are_cut() {
    let too_long = "standard input: a limit is passed (refusal 3)\n";
    assert_eq!(said_of(&vec![b'\n'; 65_537], false), too_long);
    assert_eq!(said_of(&vec![b'\n'; 1_000_000], true), too_long);
    // From a file, and one byte less.
    let file = Path::new(env!("CARGO_TARGET_TMPDIR")).join("long.statement");
    for (length, listed) in [(65_537, "refused\t3\tstatement\t0\n"), (65_536, "refused\t2\tstatement\t1\n")] {
        fs::write(&file, vec![b'\n'; length]).expect("written");
        assert_eq!(said(&run(&[&catalog(), &file])).1, listed);
    }
    let record = said_of(&[&[b'x'; 60_000][..], b"\n"].concat(), false);
    assert!(record.contains("x .. (60000 bytes)") && record.len() < 400, "{record}");
}

#[test]
fn what_cannot_be_read_is_2() {
    let cannot = |arguments: &[&dyn AsRef<OsStr>], what: &str| {
        let (status, out, errors) = said(&run(arguments));
        assert_eq!((status, out.as_str()), (Some(2), ""), "{errors}");
        assert!(errors.starts_with("plan: ") && errors.contains(what), "{errors}");
    };
    let statement = example("p1.statement");
    cannot(&[&"no such file", &statement], "no such file: ");
    cannot(&[&catalog(), &"no such file"], "no such file: ");
    cannot(&[&catalog(), &env::temp_dir()], &env::temp_dir().display().to_string());
    cannot(&[], "two files are asked for, and 0 given");
    cannot(&[&catalog()], "two files are asked for, and 1 given");
    cannot(&[&catalog(), &statement, &statement], "two files are asked for, and 3 given");
    cannot(&[&catalog(), &statement, &"--tree", &"--area"], "only one of --tree and --area");
    cannot(&[&catalog(), &statement, &"--trees"], "there is no option --trees");
    cannot(&[&"-", &"-"], "only one of both files can be standard input");
    cannot(&[&"--", &"--help", &statement], "--help: ");
    let odd = OsString::from(OsStr::from_bytes(b"\xff\xfe"));
    cannot(&[&odd, &statement], "No such file");
    cannot(&[&"", &statement], "No such file");
}

#[test]
fn help_and_version_are_no_errors() {
    let (status, help, errors) = said(&run(&[&"--help"]));
    assert_eq!((status, errors.as_str()), (Some(0), ""));
    assert!(
        help.starts_with("usage: plan CATALOG STATEMENT [--tree | --area]\n") && help.contains("Exit status")
    );
    let (status, version, errors) = said(&run(&[&"--version"]));
    assert_eq!((status, errors.as_str()), (Some(0), ""));
    let library = planner::library().expect("a library is linked");
    assert_eq!(version, format!("plan {}\n{library}\n", env!("CARGO_PKG_VERSION")));
    assert!(version.contains(library.sha256) && library.sha256.len() == 64);
}

#[test]
fn a_closed_pipe_is_no_panic() {
    for (name, status) in EXAMPLES {
        let (reader, writer) = std::io::pipe().expect("a pipe");
        drop(reader);
        let statement = example(&format!("{name}.statement"));
        let output = command(&[&catalog(), &statement]).stdout(writer).output().expect("the command runs");
        assert_eq!(output.status.code(), Some(status), "{name}");
        assert!(!said(&output).2.contains("panic"), "{name}");
        let (reader, writer) = std::io::pipe().expect("a pipe");
        drop(reader);
        let ended = command(&[&catalog(), &statement]).stdout(Stdio::null()).stderr(writer).status();
        assert_eq!(ended.expect("the command runs").code(), Some(status), "{name}");
    }
    // A full disk is another matter.
    let full = fs::OpenOptions::new().write(true).open("/dev/full").expect("Linux has it");
    let output =
        command(&[&catalog(), &example("p1.statement")]).stdout(full).output().expect("the command runs");
    assert_eq!(output.status.code(), Some(2));
    assert!(said(&output).2.starts_with("plan: standard output: "));
}
