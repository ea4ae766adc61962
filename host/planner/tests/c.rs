//! The header and the example in C: compiled without a warning, and held to stored and worked plans.

#![cfg(all(target_arch = "x86_64", target_os = "linux"))]

mod worked;

use std::fs;
use std::path::{Path, PathBuf};
use std::process::{Command, Output};

use planner::{Binary, Kind, LAYOUT, LEAST_AREA, Unary};
use worked::{WORKED, bytes};

const WARNINGS: [&str; 5] = ["-std=c99", "-Wall", "-Wextra", "-Werror", "-pedantic"];

fn repository() -> PathBuf {
    Path::new(env!("CARGO_MANIFEST_DIR")).join("../..")
}

fn folder(name: &str) -> PathBuf {
    let folder = Path::new(env!("CARGO_TARGET_TMPDIR")).join(name);
    fs::create_dir_all(&folder).expect("a folder for the test");
    folder
}

/// Runs the compiler, which must be content.
fn compile(arguments: &mut Command) {
    let output = arguments.output().expect("a C compiler, cc, is on the PATH");
    assert!(output.status.success(), "{}", String::from_utf8_lossy(&output.stderr));
    assert_eq!(String::from_utf8_lossy(&output.stderr), "");
}

/// The example, compiled and linked with the library.
fn compiled(name: &str) -> PathBuf {
    compiled_with(name, Path::new(env!("PLANNER_LIBRARY_FILE")))
}

/// The example, compiled and linked with a library or a source in its place.
fn compiled_with(name: &str, library: &Path) -> PathBuf {
    let program = folder(name).join("plan");
    compile(
        Command::new("cc")
            .args(WARNINGS)
            .arg("-I")
            .arg(repository().join("include"))
            .arg(repository().join("examples/plan.c"))
            .arg(library)
            .args(["-lm", "-o"])
            .arg(&program),
    );
    program
}

fn run(program: &Path, catalog: &Path, statement: &Path) -> Output {
    Command::new(program).args([catalog, statement]).output().expect("the example runs")
}

#[test]
fn the_header_stands_alone() {
    let file = folder("header").join("alone.c");
    fs::write(&file, "#include \"planner.h\"\n#include \"planner.h\"\nstruct planner_outcome kept;\n")
        .expect("written");
    compile(
        Command::new("cc")
            .args(WARNINGS)
            .args(["-fsyntax-only", "-I"])
            .arg(repository().join("include"))
            .arg(file),
    );
}

#[test]
fn the_example_prints_the_stored_plans() {
    let program = compiled("stored");
    let example = |name: String| repository().join("examples").join(name);
    let catalog = example("heap.catalog".to_string());
    for (name, status) in [("p1", 0), ("star", 0), ("right-join", 0), ("groups", 0), ("refusal", 1)] {
        let output = run(&program, &catalog, &example(format!("{name}.statement")));
        let stored = fs::read(example(format!("{name}.plan"))).expect("a stored plan");
        assert_eq!(String::from_utf8_lossy(&output.stdout), String::from_utf8_lossy(&stored), "{name}");
        assert_eq!(output.status.code(), Some(status), "{name}");
    }
    assert_eq!(run(&program, &catalog, Path::new("no such file")).status.code(), Some(2));
}

/// Statements of every kind.
#[test]
fn the_example_prints_worked_plans() {
    let program = compiled("worked");
    let (catalog, statement) = (folder("worked").join("catalog"), folder("worked").join("statement"));
    for worked in &WORKED {
        fs::write(&catalog, bytes(worked.catalog)).expect("written");
        fs::write(&statement, bytes(worked.statement)).expect("written");
        let output = run(&program, &catalog, &statement);
        assert_eq!(
            String::from_utf8_lossy(&output.stdout),
            String::from_utf8_lossy(&bytes(worked.printed)),
            "{}",
            worked.statement
        );
    }
}

/// A library that says it writes another layout, or takes another area, is not asked for a plan.
#[test]
fn the_example_minds_what_the_library_is() {
    for (layout, length) in [("2u", "PLANNER_LEAST_AREA"), ("PLANNER_LAYOUT", "PLANNER_LEAST_AREA + 1")] {
        let library = folder("other").join("other.c");
        let source = format!(
            "#include \"planner.h\"\n\
            uint32_t planner_layout(void) {{ return {layout}; }}\n\
            size_t planner_area_length(void) {{ return {length}; }}\n\
            struct planner_outcome planner_plan(const uint8_t *c, size_t m, const uint8_t *s, size_t n, uint32_t *a,\n\
            size_t k) {{ struct planner_outcome o = {{0, 0, 0, 0}}; (void)c; (void)m; (void)s; (void)n; (void)a; (void)k;\n\
            return o; }}\n"
        );
        fs::write(&library, source).expect("written");
        let examples = repository().join("examples");
        let program = compiled_with("other", &library);
        let output = run(&program, &examples.join("heap.catalog"), &examples.join("p1.statement"));
        assert_eq!((output.status.code(), output.stdout.len()), (Some(2), 0), "{layout}, {length}");
    }
}

/// `SquareRoot` as `SQUARE_ROOT`.
fn constant(name: &impl std::fmt::Debug) -> String {
    let mut constant = String::new();
    for letter in format!("{name:?}").chars() {
        if letter.is_uppercase() && !constant.is_empty() {
            constant.push('_');
        }
        constant.extend(letter.to_uppercase());
    }
    constant
}

/// The numbers of the header are those that this crate reads; the nodes' are seen in the plans printed above.
#[test]
fn the_header_has_this_crates_numbers() {
    let header = fs::read_to_string(repository().join("include/planner.h")).expect("the header");
    let mut expected: Vec<String> = ["NULL", "BOOL", "INT", "FLOAT", "TEXT", "COLUMN"]
        .iter()
        .zip(1..)
        .map(|(name, number)| format!("PLANNER_{name} = {number}"))
        .collect();
    expected.extend(
        Kind::ALL.iter().zip(1..).map(|(kind, number)| format!("PLANNER_{} = {number}", constant(kind))),
    );
    expected.extend(
        Unary::ALL.iter().zip(8..).map(|(of, number)| format!("PLANNER_{} = {number}", constant(of))),
    );
    expected.extend(
        Binary::ALL.iter().zip(16..).map(|(of, number)| format!("PLANNER_{} = {number}", constant(of))),
    );
    expected.extend([
        "PLANNER_IS_NULL = 14".to_string(),
        "PLANNER_IS_NAN = 15".to_string(),
        format!("#define PLANNER_LAYOUT {LAYOUT}u"),
        format!("#define PLANNER_LEAST_AREA {LEAST_AREA}u"),
    ]);
    let lines: Vec<&str> = header.lines().map(|line| line.trim().trim_end_matches(',')).collect();
    for line in expected {
        assert!(lines.contains(&line.as_str()), "the header has no {line}");
    }
}
