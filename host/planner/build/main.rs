//! Finds the proved library: `dist/libplanner.a` of the repository, or that of the folder which `PLANNER_LIB_DIR` names.

mod sha256;

use std::path::{Path, PathBuf};
use std::{env, fs};

/// Names another folder, whole or from the repository on.
const VARIABLE: &str = "PLANNER_LIB_DIR";
const LIBRARY: &str = "libplanner.a";

fn main() {
    println!("cargo::rustc-check-cfg=cfg(planning)");
    println!("cargo::rerun-if-changed=build");
    println!("cargo::rerun-if-env-changed={VARIABLE}");
    let crate_folder = env::var_os("CARGO_MANIFEST_DIR").expect("cargo sets CARGO_MANIFEST_DIR");
    let repository = PathBuf::from(crate_folder).join("../..");
    let named = env::var_os(VARIABLE).map(|folder| repository.join(folder));
    let shipped = named.is_none();
    let folder = named.unwrap_or(repository.join("dist"));
    let found = find(&folder, shipped);
    let (sha256, toolchain) = found.clone().unwrap_or_default();
    println!("cargo::rustc-env=PLANNER_LIBRARY_SHA256={sha256}");
    println!("cargo::rustc-env=PLANNER_LIBRARY_SHIPPED={}", if shipped { "yes" } else { "no" });
    println!("cargo::rustc-env=PLANNER_LIBRARY_TOOLCHAIN={toolchain}");
    // For the tests, which link it into a program in C.
    println!("cargo::rustc-env=PLANNER_LIBRARY_FILE={}", folder.join(LIBRARY).display());
    if found.is_none() {
        return;
    }
    println!("cargo::rustc-link-search=native={}", folder.display());
    println!("cargo::rustc-link-lib=static=planner");
    println!("cargo::rustc-cfg=planning");
    println!("cargo::metadata=available=yes");
    if shipped {
        compare_with_proved(&repository, &sha256);
    } else {
        println!("cargo::warning={VARIABLE}: linked {}, SHA-256 {sha256}", folder.join(LIBRARY).display());
    }
}

/// The library's SHA-256, and for the one that ships the toolchain that made it; none where there is nothing to link.
fn find(folder: &Path, shipped: bool) -> Option<(String, String)> {
    let of_target = |name| env::var(name).unwrap_or_default();
    if of_target("CARGO_CFG_TARGET_ARCH") != "x86_64" || of_target("CARGO_CFG_TARGET_OS") != "linux" {
        println!("cargo::warning=built without the planner: the library is one for x86-64 Linux");
        return None;
    }
    let sha256 = sha256::hex(&read(&folder.join(LIBRARY)));
    if !shipped {
        return Some((sha256, String::new()));
    }
    let stated = read_text(&folder.join("SHA256SUMS"));
    if stated.split_whitespace().next() != Some(&sha256) {
        fail(&format!("dist/{LIBRARY} is not the one that dist/SHA256SUMS names"));
    }
    Some((sha256, read_text(&folder.join("TOOLCHAIN")).trim().to_string()))
}

/// Says so where the library that was proved here last is another than the one that ships.
fn compare_with_proved(repository: &Path, sha256: &str) {
    let proved = repository.join("target/staticlib").join(LIBRARY);
    println!("cargo::rerun-if-changed={}", proved.display());
    if let Ok(bytes) = fs::read(proved)
        && sha256::hex(&bytes) != sha256
    {
        println!(
            "cargo::warning=linked dist/{LIBRARY}; target/staticlib has another, which {VARIABLE}=target/staticlib links"
        );
    }
}

fn read(path: &Path) -> Vec<u8> {
    println!("cargo::rerun-if-changed={}", path.display());
    fs::read(path).unwrap_or_else(|error| fail(&format!("{}: {error}", path.display())))
}

fn read_text(path: &Path) -> String {
    String::from_utf8_lossy(&read(path)).into_owned()
}

fn fail(message: &str) -> ! {
    println!("cargo::error={message}");
    std::process::exit(1)
}
