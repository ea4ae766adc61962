//! The tool `tools/rules`, in a tree of its own with a stand-in for `rt`: it computes the rules of the tree that it stands in,
//! and prints what they print of cases of which nothing is expected.

use std::fs;
use std::os::unix::fs::{PermissionsExt, symlink};
use std::path::{Path, PathBuf};
use std::process::{Command, Output};

/// A copied tree, whose scratch repository still leads to the rules of another.
struct Tree(PathBuf);

impl Tree {
    /// The stand-in for `rt` notes which rules it is asked about, and says what is given.
    fn new(name: &str, says: &str) -> Self {
        let root = std::env::temp_dir().join(format!("judge-rules-{}-{name}", std::process::id()));
        let tree = Tree(root);
        tree.write("crates.txt", "rules:\n");
        tree.write("crates/rules/specs/Lib.antt", "pub mod Listing\n");
        tree.write("crates/rules/specs/Listing.antt", "unfoldable pub listing : this tree's\n");
        tree.write("elsewhere/rules/specs/Listing.antt", "another tree's\n");
        fs::create_dir_all(tree.path("target/rules-trial/crates")).expect("a folder is made");
        symlink(tree.path("elsewhere/rules"), tree.path("target/rules-trial/crates/rules"))
            .expect("a link is made");
        let tool = concat!(env!("CARGO_MANIFEST_DIR"), "/../tools/rules");
        tree.write("host/tools/rules", &fs::read_to_string(tool).expect("the tool is read"));
        tree.write(
            "bin/rt",
            &format!("#!/bin/sh\ncat ../rules/specs/Listing.antt >>\"$(dirname \"$0\")/../asked\"\n{says}\n"),
        );
        fs::set_permissions(tree.path("bin/rt"), fs::Permissions::from_mode(0o755)).expect("it may be run");
        tree
    }

    fn path(&self, path: &str) -> PathBuf {
        self.0.join(path)
    }

    fn write(&self, path: &str, text: &str) {
        let path = self.path(path);
        fs::create_dir_all(path.parent().expect("a file stands in a folder")).expect("a folder is made");
        fs::write(path, text).expect("a file is written");
    }

    fn read(&self, path: &str) -> String {
        fs::read_to_string(self.path(path)).unwrap_or_else(|error| panic!("{path}: {error}"))
    }

    /// Runs the tool on the folder `cases`.
    fn run(&self) -> Output {
        let search = std::env::var("PATH").unwrap_or_default();
        let mut command = Command::new("python3");
        command.arg(self.path("host/tools/rules")).arg(self.path("cases"));
        command.env("PATH", format!("{}:{search}", self.path("bin").display()));
        command.current_dir(Path::new("/")).output().expect("python3 is needed")
    }
}

impl Drop for Tree {
    fn drop(&mut self) {
        fs::remove_dir_all(&self.0).expect("the tree is removed");
    }
}

#[test]
fn a_copied_tree_has_its_own_rules_computed() {
    let tree = Tree::new("copied", "exit 0");
    tree.write("cases/1.catalog", "");
    tree.write("cases/1.statement", "drop\tt\tno\nend\n");
    tree.write("cases/1.expected", "plan\tdrop\t0\t0\n");
    let output = tree.run();
    assert!(output.status.success(), "{output:?}");
    assert_eq!(tree.read("asked"), "unfoldable pub listing : this tree's\n");
    assert_eq!(tree.read("cases/1.listing"), "plan\tdrop\t0\t0\n");
}

#[test]
fn a_case_of_which_nothing_is_expected_has_its_listing_printed() {
    // The text is read off a refusal, as one number with its first byte lowest.
    let number = "plan x\n".bytes().rev().fold(0u64, |number, byte| number * 256 + u64::from(byte));
    let tree = Tree::new("printed", &format!("echo 'x: error: `part0` is Path ℕ {number} 256'; exit 1"));
    tree.write("cases/1.catalog", "");
    tree.write("cases/1.statement", "drop\tt\tno\nend\n");
    let output = tree.run();
    assert!(output.status.success(), "{output:?}");
    assert_eq!(String::from_utf8_lossy(&output.stdout), "case 1: the rules print:\nplan x\n\n");
    assert_eq!(tree.read("cases/1.listing"), "plan x\n");
}

#[test]
fn a_listing_that_is_not_computed_fails() {
    let tree = Tree::new("missing", "exit 1");
    tree.write("cases/1.catalog", "");
    tree.write("cases/1.statement", "end\n");
    assert_eq!(tree.run().status.code(), Some(1));
    let empty = Tree::new("empty", "exit 0");
    fs::create_dir_all(empty.path("cases")).expect("a folder is made");
    assert_eq!(empty.run().status.code(), Some(2));
}
