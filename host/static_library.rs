//! For build scripts: links the static library of a Rattle crate, which `tools/build NAME` writes into the repository's
//! `target/`. Where it is missing, the crate is built without it.

use std::env;
use std::path::PathBuf;

const FOLDER: &str = "../../target/staticlib";

/// Links `libNAME.a` and sets a cfg where it is at hand; says what is left out where it is not.
pub fn link(name: &str, cfg: &str, what: &str) {
    println!("cargo::rustc-check-cfg=cfg({cfg})");
    println!("cargo::rerun-if-changed=build.rs");
    println!("cargo::rerun-if-changed=../static_library.rs");
    let crate_folder = env::var_os("CARGO_MANIFEST_DIR").expect("cargo sets CARGO_MANIFEST_DIR");
    let folder = PathBuf::from(crate_folder).join(FOLDER);
    let library = folder.join(format!("lib{name}.a"));
    println!("cargo::rerun-if-changed={}", folder.display());
    println!("cargo::rerun-if-changed={}", library.display());
    if !library.is_file() {
        return missing(what, &format!("`tools/build {name}` was not run"));
    }
    let of_target = |name| env::var(name).unwrap_or_default();
    if of_target("CARGO_CFG_TARGET_ARCH") != "x86_64" || of_target("CARGO_CFG_TARGET_OS") != "linux" {
        return missing(what, "the library is one for x86-64 Linux");
    }
    println!("cargo::rustc-link-search=native={}", folder.display());
    println!("cargo::rustc-link-lib=static={name}");
    println!("cargo::rustc-cfg={cfg}");
    println!("cargo::metadata=available=yes");
}

fn missing(what: &str, reason: &str) {
    println!("cargo::warning=built without {what}: {reason}");
}
