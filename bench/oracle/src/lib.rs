//! The Rust that was ported, asked for its answers.
//!
//! The sources are read when this crate is built and are used as they are,
//! but for the two substitutions that `build.rs` names and checks. They run
//! over a flat memory, the window. Each call gets a device image (docs/ABI.md)
//! and gives one back, so that whole devices can be compared byte by byte.
//!
//! In the Rust a register write runs the DMA at once, because its bus does.
//! Here a run is a call of its own, so the register functions of `io.rs` are
//! called directly.
//!
//! [`AVAILABLE`] says whether the sources were there.

#[cfg(rust_sources)]
mod bus;
#[cfg(rust_sources)]
mod device;
#[cfg(rust_sources)]
mod image;
#[cfg(rust_sources)]
mod lines;
#[cfg(rust_sources)]
mod requests;

#[cfg(rust_sources)]
mod sources {
    #![allow(dead_code, unused, clippy::all)]
    include!(concat!(env!("OUT_DIR"), "/modules.rs"));
}
// The sources name each other from the crate's root.
#[cfg(rust_sources)]
use sources::{esdhc, io, panel, syntakt};

#[cfg(rust_sources)]
pub use device::Oracle;

#[cfg(not(rust_sources))]
mod absent;
#[cfg(not(rust_sources))]
pub use absent::Oracle;

/// The length of every device image.
pub const IMAGE: usize = 8720;

/// Whether the sources were there when this crate was built.
pub const AVAILABLE: bool = cfg!(rust_sources);

/// Why a state lies outside the domain in which equality is claimed.
#[derive(Clone, Copy, Debug, PartialEq, Eq, PartialOrd, Ord, Hash)]
pub enum Outside {
    /// There are no sources to ask.
    NoSources,
    /// More than four channels have pending counts.
    TooManyCounted,
    /// A channel that the Rust treats apart has a pending count.
    CountedApart,
    /// A channel has both a pending count and a standing request.
    CountedAndStanding,
    /// The level or a DMA-owned line is not what would be worked out.
    NotWorkedOut,
}

/// How a run or a service ended.
#[derive(Clone, Copy, Debug, PartialEq, Eq)]
pub enum Ran {
    /// To its end.
    Whole,
    /// At a byte outside the window; the device is then of no use.
    LeftWindow,
    /// Given up after too many accesses; the device is then of no use.
    GivenUp,
}

/// A store that the Rust made into the window.
#[derive(Clone, Copy, Debug, PartialEq, Eq)]
pub struct Store {
    pub address: u32,
    /// In bytes: 1, 2 or 4.
    pub width: u8,
    /// What stood there before.
    pub old: u32,
}

/// A memory access that the Rust made.
#[derive(Clone, Copy, Debug, PartialEq, Eq)]
pub struct Access {
    pub write: bool,
    pub address: u32,
    /// In bytes: 1, 2 or 4.
    pub width: u8,
    /// What was read or written.
    pub value: u32,
}

/// Channels that the Rust gives requests of their own, so that equality is
/// not claimed where they have pending counts.
pub const APART: u64 = 1 << 29 | 1 << 34 | 1 << 35 | 1 << 36 | 1 << 37 | 1 << 59;
