//! The examples of docs/TEXTS.md and docs/REFUSALS.md, planned.

#![cfg(all(target_arch = "x86_64", target_os = "linux"))]

use std::path::{Path, PathBuf};

use planner::{LEAST_AREA, Plan, Reason, plan};

fn file(name: &str) -> PathBuf {
    Path::new(env!("CARGO_MANIFEST_DIR")).join("../..").join(name)
}

fn read(name: &str) -> String {
    std::fs::read_to_string(file(name)).unwrap_or_else(|error| panic!("{name}: {error}"))
}

/// An example of a page: the heading that it stands under, its records, and what is answered.
struct Example {
    heading: String,
    records: Vec<u8>,
    answer: String,
}

/// The examples of a page: what stands between two lines of three backticks.
fn examples(page: &str) -> Vec<Example> {
    let (mut heading, mut examples, mut records, mut inside) = (String::new(), Vec::new(), Vec::new(), false);
    for line in page.lines() {
        if line == "```" {
            inside = !inside;
            assert!(records.is_empty(), "under {heading:?}: an example without its answer");
        } else if !inside && line.starts_with('#') {
            heading = line.to_string();
        } else if inside && let Some(answer) = line.strip_prefix("=> ") {
            let records = std::mem::take(&mut records);
            examples.push(Example { heading: heading.clone(), records, answer: answer.to_string() });
        } else if inside {
            records.extend(written(line));
        }
    }
    examples
}

/// The record that a line stands for, as often as it says.
fn written(line: &str) -> Vec<u8> {
    let (record, times) = match line.split_once(" × ") {
        Some((record, times)) => (record, times.parse().expect("how often a record stands")),
        None => (line, 1),
    };
    let record = match record.split_once(' ') {
        Some(("text", bytes)) => format!("text\t{bytes}\n"),
        _ => record.replace(' ', "\t") + "\n",
    };
    record.repeat(times).into_bytes()
}

/// What is answered to an example: a statement over the heap catalog, or a catalog.
fn answer(records: &[u8]) -> String {
    let (heap, drop) =
        (std::fs::read(file("examples/heap.catalog")).expect("the catalog"), b"drop\tt\tno\nend\n");
    let is_catalog = records.starts_with(b"table\t");
    let (catalog, statement) = if is_catalog { (records, &drop[..]) } else { (&heap[..], records) };
    let mut area = vec![0; LEAST_AREA];
    match plan(catalog, statement, &mut area) {
        Ok(plan) => {
            Plan::check(catalog, statement, plan.numbers()).expect("a plan keeps its promises");
            if is_catalog { "a catalog".to_string() } else { "planned".to_string() }
        }
        Err(refusal) => refusal.listing().to_string().replace('\t', " "),
    }
}

#[test]
fn examples_are_answered_as_the_pages_say() {
    for page in ["docs/TEXTS.md", "docs/REFUSALS.md"] {
        let examples = examples(&read(page));
        assert!(examples.len() >= 9, "{page} has {} examples", examples.len());
        for example in examples {
            let text = String::from_utf8_lossy(&example.records).into_owned();
            assert_eq!(answer(&example.records), example.answer, "{page}, {}:\n{text}", example.heading);
        }
    }
}

#[test]
fn every_refusal_has_its_heading_and_an_example() {
    let page = read("docs/REFUSALS.md");
    let headings: Vec<&str> = page.lines().filter(|line| line.starts_with("### ")).collect();
    let expected: Vec<String> =
        Reason::ALL.iter().map(|reason| format!("### {}. {reason}", reason.number())).collect();
    assert_eq!(headings, expected);
    for example in examples(&page) {
        let number = example.answer.split(' ').nth(1).expect("a refusal's number");
        assert!(example.heading.starts_with(&format!("### {number}. ")), "{}", example.heading);
    }
    for heading in &headings[1..] {
        assert!(
            examples(&page).iter().any(|example| example.heading == *heading),
            "{heading} has no example"
        );
    }
}
