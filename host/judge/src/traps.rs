//! The traps of the Rust that document 01 names, by their messages. Any other panic is a fault.

/// The lowest integer's negation, and its quotient and remainder by minus one: 25.
const OVERFLOWS: [&str; 3] = [
    "attempt to negate with overflow",
    "attempt to divide with overflow",
    "attempt to calculate the remainder with overflow",
];

/// Whether an operator trapped that document 01 refuses with 25.
pub fn is_overflow(message: &str) -> bool {
    OVERFLOWS.contains(&message)
}

/// Whether the planner met an `is` with neither null nor a NaN, which document 01 refuses with 29.
pub fn is_invalid_is(message: &str) -> bool {
    message.starts_with("invalid IS value ")
}
