//! Stand-in for `serde`. Planning serializes nothing; the names only have to resolve.

pub use serde_derive::{Deserialize, Serialize};

/// What a hand-written serialization function is generic over.
pub trait Serializer {
    type Ok;
    type Error;

    fn serialize_f64(self, value: f64) -> Result<Self::Ok, Self::Error>;
}
