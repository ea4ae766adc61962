//! Whether a static library that was linked is the one that its sources give.

use std::collections::BTreeSet;
use std::fs;
use std::path::{Path, PathBuf};
use std::time::SystemTime;

use crate::checksum::checksum;

const REPOSITORY: &str = concat!(env!("CARGO_MANIFEST_DIR"), "/../..");

/// The libraries with the checksums of those that stood in `target/` when this was built; none where there was none.
const LINKED: [(&str, Option<&str>); 3] = [
    ("planner", option_env!("LINKED_PLANNER")),
    ("reader_host", option_env!("LINKED_READER_HOST")),
    ("value_host", option_env!("LINKED_VALUE_HOST")),
];

/// A library, as it stands in `target/`, is the one that was linked, and no source of its crate or of those that this uses is
/// newer. The error says what is to be done. Of a library from elsewhere there is nothing to say.
pub fn check(name: &str) -> Result<(), String> {
    match LINKED.iter().find(|(known, _)| *known == name) {
        Some((_, Some(linked))) => check_in(Path::new(REPOSITORY), name, linked),
        Some((_, None)) => Ok(()),
        None => Err(format!("no library {name}")),
    }
}

fn check_in(repository: &Path, name: &str, linked: &str) -> Result<(), String> {
    let library = repository.join(format!("target/staticlib/lib{name}.a"));
    let bytes = fs::read(&library).map_err(|error| format!("{}: {error}", library.display()))?;
    if checksum(&bytes) != linked {
        return Err(format!("another {} was linked than stands there: build again", library.display()));
    }
    let made = modified(&library)?;
    for source in sources(repository, crate_of(name))? {
        if modified(&source)? > made {
            let (library, source) = (library.display(), source.display());
            return Err(format!(
                "{library} is older than {source}: run `tools/build {name}`, and build again"
            ));
        }
    }
    Ok(())
}

/// The crate that a library is built of.
fn crate_of(name: &str) -> &str {
    if name == "planner" { "planner_c" } else { name }
}

fn modified(path: &Path) -> Result<SystemTime, String> {
    let time = fs::metadata(path).and_then(|metadata| metadata.modified());
    time.map_err(|error| format!("{}: {error}", path.display()))
}

/// The sources of a crate and of all that it uses, by `crates.txt`.
fn sources(repository: &Path, name: &str) -> Result<Vec<PathBuf>, String> {
    let list = repository.join("crates.txt");
    let text = fs::read_to_string(&list).map_err(|error| format!("{}: {error}", list.display()))?;
    let (mut found, mut next) = (BTreeSet::new(), vec![name]);
    while let Some(name) = next.pop() {
        if found.insert(name) {
            // Behind the name there may stand what kind of crate it is.
            let is_named = |of: &str| of.split_whitespace().next() == Some(name);
            let line = text.lines().find_map(|line| line.split_once(':').filter(|(of, _)| is_named(of)));
            next.extend(
                line.iter().flat_map(|(_, used)| used.split('#').next()).flat_map(str::split_whitespace),
            );
        }
    }
    let mut sources = Vec::new();
    for name in found {
        // What is not of this repository is the toolchain's.
        let folder = repository.join("crates").join(name).join("src");
        if folder.is_dir() {
            files(&folder, &mut sources)?;
        }
    }
    if sources.is_empty() { Err(format!("{}: no sources of {name}", list.display())) } else { Ok(sources) }
}

fn files(folder: &Path, found: &mut Vec<PathBuf>) -> Result<(), String> {
    let named = |error| format!("{}: {error}", folder.display());
    for entry in fs::read_dir(folder).map_err(named)? {
        let path = entry.map_err(named)?.path();
        if path.is_dir() { files(&path, found)? } else { found.push(path) }
    }
    Ok(())
}

#[cfg(test)]
mod tests {
    use super::*;
    use std::fs::File;
    use std::time::Duration;

    /// Writes a file that was modified so many seconds after some time.
    fn write(path: &Path, text: &str, seconds: u64) {
        fs::create_dir_all(path.parent().expect("a file stands in a folder")).expect("a folder is made");
        fs::write(path, text).expect("a file is written");
        let time = SystemTime::UNIX_EPOCH + Duration::from_secs(1_000_000_000 + seconds);
        File::options()
            .write(true)
            .open(path)
            .and_then(|file| file.set_modified(time))
            .expect("a time is set");
    }

    #[test]
    fn a_library_that_is_older_than_a_source_or_another_is_noticed() {
        let repository = std::env::temp_dir().join(format!("judge-stale-{}", std::process::id()));
        write(
            &repository.join("crates.txt"),
            "low: libc\nmiddle: low\nhigh: middle # and no more\nother: low\n",
            0,
        );
        for name in ["low", "middle", "high", "other"] {
            write(&repository.join(format!("crates/{name}/src/lib.rt")), "", 1);
        }
        write(&repository.join("target/staticlib/libhigh.a"), "a library", 2);
        let linked = checksum(b"a library");
        assert_eq!(check_in(&repository, "high", &linked), Ok(()));
        write(&repository.join("crates/other/src/lib.rt"), "", 3);
        assert_eq!(check_in(&repository, "high", &linked), Ok(()));
        assert!(check_in(&repository, "high", &checksum(b"another")).is_err());
        for name in ["low", "middle", "high"] {
            let source = repository.join(format!("crates/{name}/src/part/more.rt"));
            write(&source, "", 3);
            assert!(check_in(&repository, "high", &linked).is_err(), "{name}");
            write(&source, "", 1);
        }
        assert_eq!(check_in(&repository, "high", &linked), Ok(()));
        write(&repository.join("crates.txt"), "low:\nmiddle: low\nhigh staticlib: middle\n", 0);
        assert_eq!(check_in(&repository, "high", &linked), Ok(()));
        write(&repository.join("crates/low/src/lib.rt"), "", 3);
        assert!(check_in(&repository, "high", &linked).is_err());
        fs::remove_dir_all(&repository).expect("the folder is removed");
    }
}
