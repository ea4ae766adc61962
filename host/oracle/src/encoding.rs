//! Stand-in for the encoding module, which planning does not use.

pub trait Value {}
