//! Finds the static library of the crate `reader_host`.

#[path = "../static_library.rs"]
mod static_library;

fn main() {
    static_library::link("reader_host", "reading", "the reading of texts");
}
