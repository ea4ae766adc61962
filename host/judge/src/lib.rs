//! Tries the planner and its rules against the Rust planner: generated cases, predictions, and comparison.

pub mod bench;
mod checksum;
pub mod compare;
pub mod dropin;
pub mod entry;
pub mod folder;
pub mod generate;
pub mod list;
pub mod listing;
pub mod planning;
pub mod predict;
pub mod program;
pub mod random;
pub mod reading;
pub mod sample;
pub mod shrink;
pub mod stale;
pub mod traps;
pub mod values;
pub mod worked_out;
