//! Lets the tests know what is at hand: the Rust planner's sources, the proved operators, the proved reading, the
//! proved planner, the programs.

#[path = "src/checksum.rs"]
mod checksum;

use std::path::Path;
use std::{env, fs};

/// The programs, for x86-64 Linux, which `tools/build read_texts query_plan` writes into the repository's `target/`.
const READING_PROGRAM: &str = "../../target/bin/read_texts";
const PLANNING_PROGRAM: &str = "../../target/bin/query_plan";

/// The static libraries that are linked, where they are at hand.
const LIBRARIES: [&str; 3] = ["planner", "reader_host", "value_host"];

fn main() {
    println!("cargo::rerun-if-changed=build.rs");
    println!("cargo::rerun-if-changed=src/checksum.rs");
    LIBRARIES.iter().for_each(|name| note_checksum(name));
    println!("cargo::rerun-if-changed={READING_PROGRAM}");
    println!("cargo::rerun-if-changed={PLANNING_PROGRAM}");
    let named = |variable| env::var_os(variable).is_some();
    let runs = cfg!(all(target_arch = "x86_64", target_os = "linux"));
    for (cfg, at_hand) in [
        ("planner", named("DEP_TOYDB_PLANNER_AVAILABLE")),
        ("operators", named("DEP_VALUE_HOST_AVAILABLE")),
        ("reading", named("DEP_READER_HOST_AVAILABLE")),
        ("planning", named("DEP_PLANNER_AVAILABLE")),
        ("program", runs && Path::new(READING_PROGRAM).is_file()),
        ("planning_program", runs && Path::new(PLANNING_PROGRAM).is_file()),
    ] {
        println!("cargo::rustc-check-cfg=cfg({cfg})");
        if at_hand {
            println!("cargo::rustc-cfg={cfg}");
        }
    }
}

/// The checksum of the library that is linked, so that another in its place is noticed.
fn note_checksum(name: &str) {
    let library = format!("../../target/staticlib/lib{name}.a");
    println!("cargo::rerun-if-changed={library}");
    if let Ok(bytes) = fs::read(&library) {
        let checksum = checksum::checksum(&bytes);
        println!("cargo::rustc-env=LINKED_{}={checksum}", name.to_uppercase());
    }
}
