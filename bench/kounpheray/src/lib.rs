//! Kounpheray: a DMA engine of 64 channels with its registers and three
//! interrupt controllers, that can step back.
//!
//! The engine is proved; this crate puts safe types around its C entries. A
//! [`Bench`] owns a device, a window of memory, staging and a journal. Each
//! accepted act writes a group into the journal, so that [`Bench::step_back`]
//! undoes it exactly, and so that [`Bench::origin`] can say which act and
//! which channel put a byte where it is.
//!
//! A device serves its channels in one of two [`Mode`]s, chosen when it is made.
//!
//! The example of document 01, with its journal of twelve records:
//!
//! ```
//! use kounpheray::{csr, Bench, Channel, Device, Field, Size, Tcd, Time};
//!
//! let channel = Channel::new(0);
//! let mut device = Device::fresh();
//! device.set_descriptor(channel, &Tcd {
//!     saddr: 0x8000_0000,
//!     attr: Tcd::attr(Size::Four, 0, Size::Four, 0),
//!     soff: 4,
//!     nbytes: 4,
//!     daddr: 0x8000_0004,
//!     citer: 1,
//!     doff: 4,
//!     biter: 1,
//!     csr: csr::START,
//!     ..Tcd::default()
//! });
//! device.set(Field::Kick, channel.bit())?;
//! let window = vec![0x11, 0x22, 0x33, 0x44, 0, 0, 0, 0];
//! let mut bench = Bench::new(0x8000_0000, window).with_device(device);
//!
//! bench.run(Time { now: 0, pace: 0 })?;
//! assert_eq!(bench.window(), [0x11, 0x22, 0x33, 0x44, 0x11, 0x22, 0x33, 0x44]);
//! assert_eq!(bench.used(), 12 * 16);
//! for record in bench.journal().group(0).unwrap().records() {
//!     println!("{record}");
//! }
//! # Ok::<(), Box<dyn std::error::Error>>(())
//! ```
//!
//! A [`Capture`] holds what a probe saw of a minor loop on a real board; it can
//! be judged by the same rules. This takes a second archive, and is behind the
//! feature `capture`, which is on if nothing else is said.
#![deny(unsafe_code)]
#![warn(missing_docs)]

mod answer;
mod bench;
#[cfg(feature = "capture")]
mod capture;
mod channel;
mod descriptor;
mod device;
mod ffi;
mod field;
mod journal;
mod lent;
mod raw;
mod refusal;
mod register;
mod settings;

pub mod entries {
    //! The C entries as they are, over a device, a window and a journal that
    //! the caller owns: for tests, and for callers who keep these apart.
    //! [`crate::Bench`] is what others want.
    pub use crate::answer::Answer;
    #[cfg(feature = "capture")]
    pub use crate::ffi::capture;
    pub use crate::ffi::{
        acknowledge, fresh, inputs, load, pending, read, run, save, service, take_back, write,
    };
    pub use crate::lent::{Lent, LentJournal};
}

pub use answer::Taken;
pub use bench::{Act, Bench, Origin};
#[cfg(feature = "capture")]
pub use capture::{Access, AccessKind, Capture, Flaw, Judged, NotACapture, Unit};
pub use channel::{Channel, Controller, Priority, Source};
pub use descriptor::{csr, Count, Size, Tcd, TcdField, TCD};
pub use device::{Device, TooWide, IMAGE};
pub use field::Field;
pub use journal::{Group, Journal, MemoryStore, NotAJournal, Record, Stored, TableStore, RECORD};
pub use lent::Time;
pub use refusal::Refusal;
pub use register::{ControllerRegister, DmaRegister, Register, Select, CR_EMLM};
pub use settings::{Mode, Settings};

/// The Rust on the page about captures compiles.
#[cfg(all(doctest, feature = "capture"))]
#[doc = include_str!("../../../docs/CAPTURE.md")]
struct Page;
