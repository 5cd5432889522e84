//! Stand-in for serde: names only.
pub use serde_derive::{Deserialize, Serialize};

pub trait Serialize {}

pub trait Deserializer<'de>: Sized {
    type Error;
}

pub trait Deserialize<'de>: Sized {
    fn deserialize<D: Deserializer<'de>>(deserializer: D) -> Result<Self, D::Error>;
}
