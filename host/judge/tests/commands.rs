//! The command `judge`: how it ends on all sorts of arguments, where nothing is compared, and where nobody reads what it
//! prints; and how it takes a program that does not end as it should.

use std::ffi::OsStr;
use std::fs;
use std::io::Write;
use std::os::unix::ffi::OsStrExt;
use std::path::{Path, PathBuf};
use std::process::{Command, Output, Stdio};
use std::time::{Duration, Instant};

fn judge(arguments: &[&str]) -> Output {
    run(arguments.iter().map(OsStr::new))
}

fn run<'a>(arguments: impl Iterator<Item = &'a OsStr>) -> Output {
    Command::new(env!("CARGO_BIN_EXE_judge")).args(arguments).output().expect("judge runs")
}

/// How it ended, without a panic.
fn status(output: &Output) -> Option<i32> {
    let said = String::from_utf8_lossy(&output.stderr);
    assert!(!said.contains("panicked"), "{said}");
    output.status.code()
}

#[test]
fn help_is_no_error() {
    for arguments in [&["--help"][..], &["-h"], &["help"], &["planned", "--help"], &["cases", "--help"]] {
        let output = judge(arguments);
        assert_eq!(status(&output), Some(0), "{arguments:?}");
        assert!(String::from_utf8_lossy(&output.stdout).contains("commands:"), "{arguments:?}");
        assert!(output.stderr.is_empty(), "{arguments:?}");
    }
}

#[test]
fn odd_arguments_are_refused() {
    const MOST: &str = "18446744073709551615";
    for arguments in [
        &[][..],
        &[""],
        &["nothing"],
        &["compare", "--count"],
        &["compare", "--count", "-1"],
        &["compare", "--count", "18446744073709551616"],
        &["compare", "--count", "1", "more"],
        &["compare", "--depth", "1"],
        &["compare", "--threads", "0"],
        &["compare", "--threads", MOST],
        &["planned", "--statements", ""],
        &["planned", "--statements", "select,other"],
        &["hold"],
        &["hold", "/nowhere"],
        &["replay", "/nowhere"],
        &["program", "/nowhere"],
        &["list", "/nowhere", "/nowhere"],
        &["cases", "/dev/null/nowhere"],
    ] {
        assert_eq!(status(&judge(arguments)), Some(2), "{arguments:?}");
    }
    let not_utf8 = [OsStr::new("compare"), OsStr::from_bytes(b"\xff")];
    assert_eq!(status(&run(not_utf8.into_iter())), Some(2));
    // The last numbers, of which there is one.
    let last = judge(&["compare", "--first", MOST, "--count", "7", "--seed", MOST]);
    assert!(matches!(status(&last), Some(0 | 1)));
    assert!(String::from_utf8_lossy(&last.stdout).contains("1 cases:"));
}

#[test]
fn a_command_that_compares_nothing_fails() {
    for arguments in [
        &["compare", "--count", "0"][..],
        &["planned", "--count", "0"],
        &["damaged", "--count", "0"],
        &["dropin", "--count", "0"],
        &["reading", "--count", "0"],
        &["replay", "/dev/null"],
    ] {
        assert!(matches!(status(&judge(arguments)), Some(1 | 2)), "{arguments:?}");
    }
}

#[test]
#[cfg_attr(not(planner), ignore = "the Rust planner's sources are not at hand")]
fn threads_come_to_the_same() {
    let one = judge(&["compare", "--seed", "5", "--count", "1001"]);
    let three = judge(&["compare", "--seed", "5", "--count", "1001", "--threads", "3"]);
    assert_eq!((status(&one), status(&three)), (Some(0), Some(0)));
    assert_eq!(String::from_utf8_lossy(&one.stdout), String::from_utf8_lossy(&three.stdout));
}

#[test]
fn output_that_nobody_reads_is_no_panic() {
    for arguments in [&["--help"][..], &["compare", "--count", "500"]] {
        let mut command = Command::new(env!("CARGO_BIN_EXE_judge"));
        let command = command.args(arguments).stdout(Stdio::piped()).stderr(Stdio::piped());
        let mut child = command.spawn().expect("judge runs");
        drop(child.stdout.take());
        let output = child.wait_with_output().expect("judge ends");
        assert!(matches!(status(&output), Some(0..=2)), "{arguments:?}");
    }
}

/// A program of the shell, in a folder of its own.
struct Script(PathBuf);

impl Script {
    fn new(name: &str, body: &str) -> Self {
        let folder = std::env::temp_dir().join(format!("judge-script-{}-{name}", std::process::id()));
        fs::create_dir_all(&folder).expect("a folder is made");
        let path = folder.join("program");
        // A process of its own writes it: while a file is open for writing here, a program that another test starts holds it
        // open too, and it could not be run.
        let mut writer = Command::new("/bin/sh")
            .args(["-c", "cat >\"$0\" && chmod 755 \"$0\""])
            .arg(&path)
            .stdin(Stdio::piped())
            .spawn()
            .expect("a shell starts");
        write!(writer.stdin.take().expect("a pipe"), "#!/bin/sh\n{body}\n").expect("a script is written");
        assert!(writer.wait().expect("the shell ends").success(), "a script may be run");
        Script(folder)
    }

    fn path(&self) -> &Path {
        &self.0
    }
}

impl Drop for Script {
    fn drop(&mut self) {
        fs::remove_dir_all(&self.0).expect("the folder is removed");
    }
}

/// A refusal that a script prints.
const PRINT: &str = "printf 'refused\\t2\\tcatalog\\t1\\n'";

#[test]
fn a_program_that_ends_ill_or_not_at_all_differs() {
    for (name, body, said) in [
        ("status", format!("{PRINT}; exit 3"), "exit status: 3"),
        ("signal", format!("{PRINT}; kill -9 $$"), "signal: 9"),
        ("error", format!("{PRINT}; echo wrong >&2"), "standard error: wrong"),
        ("hangs", format!("{PRINT}; exec sleep 60"), "it was stopped after 1s"),
        ("flood", "exec yes".to_string(), "it "),
        ("nothing", "exit 0".to_string(), "neither a plan nor a refusal"),
    ] {
        let script = Script::new(name, &body);
        let path = script.path().join("program");
        let start = Instant::now();
        let output = judge(&["program", path.to_str().expect("UTF-8"), "--count", "1", "--seconds", "1"]);
        let printed = String::from_utf8_lossy(&output.stdout);
        assert_eq!(status(&output), Some(1), "{name}: {printed}");
        assert!(printed.contains(said), "{name}: {printed}");
        assert!(start.elapsed() < Duration::from_secs(20), "{name} was not stopped");
    }
    let script = Script::new("missing", "");
    assert_eq!(status(&judge(&["program", script.path().to_str().expect("UTF-8")])), Some(2));
}
