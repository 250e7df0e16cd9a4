//! Stands in for the crate `serde`, so that the oracle's sources compile. They
//! save snapshots with it; the oracle never makes one, so nothing is called.

pub use serde_derive::{Deserialize, Serialize};

pub trait Serializer {
    type Ok;
    type Error;
}

pub trait Deserializer<'de> {
    type Error;
}

pub trait Serialize {
    fn serialize<S: Serializer>(&self, to: S) -> Result<S::Ok, S::Error>;
}

pub trait Deserialize<'de>: Sized {
    fn deserialize<D: Deserializer<'de>>(from: D) -> Result<Self, D::Error>;
}

impl<T> Serialize for Vec<T> {
    fn serialize<S: Serializer>(&self, _to: S) -> Result<S::Ok, S::Error> {
        unreachable!("the oracle makes no snapshot")
    }
}

impl<'de, T> Deserialize<'de> for Vec<T> {
    fn deserialize<D: Deserializer<'de>>(_from: D) -> Result<Self, D::Error> {
        unreachable!("the oracle loads no snapshot")
    }
}
