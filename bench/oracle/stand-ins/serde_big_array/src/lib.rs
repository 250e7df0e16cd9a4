//! Stands in for the crate `serde_big_array`: the oracle's sources name it in
//! attributes alone.

pub trait BigArray {}
