//! Finds the static library of the crate `value_host`.

#[path = "../static_library.rs"]
mod static_library;

fn main() {
    static_library::link("value_host", "operators", "the operators on values");
}
