//! Finds the Rust planner's sources, checks that they are unaltered, and writes the modules that compile them.
//!
//! The folder is named by the environment variable `TOYDB_SOURCES`, whole or from the repository on; by default it is
//! `../shared/docs/src`.
//! Where the default folder is missing, the crate is built without the planner; a named folder must be there.

use std::path::{Path, PathBuf};
use std::{env, fs};

const VARIABLE: &str = "TOYDB_SOURCES";

/// A source file with its length and checksum (FNV-1a, 64 bits).
struct Source {
    module: &'static str,
    file: &'static str,
    bytes: usize,
    checksum: u64,
}

/// The sources by the folder (of src/sql) that they are modules of.
const SOURCES: [(&str, &[Source]); 3] = [
    (
        "parser",
        &[Source {
            module: "ast",
            file: "src--src--sql--parser--ast.rs.txt",
            bytes: 10_953,
            checksum: 0x6429_e04f_74f8_4972,
        }],
    ),
    (
        "planner",
        &[
            Source {
                module: "optimizer",
                file: "src--src--sql--planner--optimizer.rs.txt",
                bytes: 17_703,
                checksum: 0xd1a3_a12d_5eb1_72f6,
            },
            Source {
                module: "plan",
                file: "src--src--sql--planner--plan.rs.txt",
                bytes: 26_994,
                checksum: 0x49be_5fe3_ab03_ddc5,
            },
            Source {
                module: "planner",
                file: "src--src--sql--planner--planner.rs.txt",
                bytes: 36_516,
                checksum: 0xa847_3663_8041_ced1,
            },
        ],
    ),
    (
        "types",
        &[
            Source {
                module: "expression",
                file: "src--src--sql--types--expression.rs.txt",
                bytes: 24_175,
                checksum: 0x5156_6811_adf8_cf1d,
            },
            Source {
                module: "schema",
                file: "src--src--sql--types--schema.rs.txt",
                bytes: 9_435,
                checksum: 0x9b60_d6eb_6d6b_0196,
            },
            Source {
                module: "value",
                file: "src--src--sql--types--value.rs.txt",
                bytes: 14_893,
                checksum: 0x626f_f7d8_708c_627a,
            },
        ],
    ),
];

fn main() {
    println!("cargo::rustc-check-cfg=cfg(planner)");
    println!("cargo::rerun-if-env-changed={VARIABLE}");
    println!("cargo::rerun-if-changed=build.rs");
    let folder = folder();
    println!("cargo::rerun-if-changed={}", folder.display());
    if !folder.is_dir() {
        if env::var_os(VARIABLE).is_some() {
            fail(&format!("{VARIABLE} names no folder: {}", folder.display()));
        }
        println!(
            "cargo::warning=the Rust planner's sources are not at hand ({VARIABLE} names their folder); built without them"
        );
        return;
    }
    let out = PathBuf::from(env::var_os("OUT_DIR").expect("cargo sets OUT_DIR"));
    for (parent, sources) in SOURCES {
        let modules: String = sources.iter().map(|source| module(&folder, source)).collect();
        fs::write(out.join(parent).with_extension("rs"), modules)
            .unwrap_or_else(|error| fail(&format!("writing the modules of {parent}: {error}")));
    }
    println!("cargo::rustc-cfg=planner");
    println!("cargo::rustc-env=TOYDB_SOURCES_FOUND={}", folder.display());
    println!("cargo::metadata=available=yes");
}

fn folder() -> PathBuf {
    let crate_folder = env::var_os("CARGO_MANIFEST_DIR").expect("cargo sets CARGO_MANIFEST_DIR");
    let repository = PathBuf::from(crate_folder).join("../..");
    repository.join(env::var_os(VARIABLE).unwrap_or("../shared/docs/src".into()))
}

/// The line that compiles a source in place, once it is seen to be unaltered.
fn module(folder: &Path, source: &Source) -> String {
    let path = folder.join(source.file);
    println!("cargo::rerun-if-changed={}", path.display());
    let bytes = fs::read(&path).unwrap_or_else(|error| fail(&format!("reading {}: {error}", path.display())));
    if bytes.len() != source.bytes || fnv1a(&bytes) != source.checksum {
        fail(&format!("{} is not the file that document 01 names: it was altered", path.display()));
    }
    let path =
        fs::canonicalize(&path).unwrap_or_else(|error| fail(&format!("finding {}: {error}", path.display())));
    format!("#[path = {:?}]\npub mod {};\n", path, source.module)
}

fn fnv1a(bytes: &[u8]) -> u64 {
    bytes
        .iter()
        .fold(0xcbf2_9ce4_8422_2325, |hash, byte| (hash ^ u64::from(*byte)).wrapping_mul(0x0100_0000_01b3))
}

fn fail(message: &str) -> ! {
    println!("cargo::error={message}");
    std::process::exit(1)
}
