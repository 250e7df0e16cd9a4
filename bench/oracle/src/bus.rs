//! The flat `Bus` that stands in for the one of the sources: one window, and
//! the device. An access that leaves the window ends the call at once.

use crate::io::Io;
use std::panic::resume_unwind;

/// Why a call of the Rust was left before its end.
#[derive(Clone, Copy, Debug, PartialEq, Eq)]
pub enum Left {
    /// A byte outside the window.
    Outside,
    /// More accesses than are waited for.
    #[cfg_attr(not(feature = "watch"), allow(dead_code))]
    TooLong,
}

/// How many memory accesses one watched call may make if nothing else is said.
#[cfg(feature = "watch")]
const ALLOWED: u64 = 1 << 15;

pub struct Bus {
    pub io: Io,
    pub in_dma: bool,
    pub(crate) base: u32,
    pub(crate) window: Vec<u8>,
    #[cfg(feature = "watch")]
    pub(crate) allowed: u64,
    #[cfg(feature = "watch")]
    left: u64,
    #[cfg(feature = "watch")]
    pub(crate) stores: Vec<crate::Store>,
    #[cfg(feature = "watch")]
    pub(crate) accesses: Vec<crate::Access>,
}

impl Bus {
    pub(crate) fn new() -> Bus {
        Bus {
            io: Io::new(),
            in_dma: false,
            base: 0,
            window: Vec::new(),
            #[cfg(feature = "watch")]
            allowed: ALLOWED,
            #[cfg(feature = "watch")]
            left: 0,
            #[cfg(feature = "watch")]
            stores: Vec::new(),
            #[cfg(feature = "watch")]
            accesses: Vec::new(),
        }
    }

    pub(crate) fn begin_call(&mut self) {
        self.in_dma = false;
        #[cfg(feature = "watch")]
        {
            self.left = self.allowed;
            self.stores.clear();
            self.accesses.clear();
        }
    }

    /// Puts an access down, as a probe on the bus does.
    #[inline(always)]
    #[cfg_attr(not(feature = "watch"), allow(unused_variables))]
    fn see(&mut self, write: bool, address: u32, width: u8, value: u32) {
        #[cfg(feature = "watch")]
        self.accesses.push(crate::Access { write, address, width, value });
    }

    /// Where `len` bytes from `address` lie in the window.
    #[inline(always)]
    fn place(&mut self, address: u32, len: usize) -> usize {
        #[cfg(feature = "watch")]
        {
            if self.left == 0 {
                leave(Left::TooLong);
            }
            self.left -= 1;
        }
        let at = address.wrapping_sub(self.base) as usize;
        if at + len > self.window.len() {
            leave(Left::Outside);
        }
        at
    }

    /// Where `len` bytes that are about to be stored lie in the window.
    #[inline(always)]
    fn place_to_store(&mut self, address: u32, len: usize) -> usize {
        let at = self.place(address, len);
        #[cfg(feature = "watch")]
        {
            let old = self.window[at..at + len].iter().fold(0, |v, byte| v << 8 | u32::from(*byte));
            self.stores.push(crate::Store { address, width: len as u8, old });
        }
        at
    }

    #[inline(always)]
    pub fn read8(&mut self, address: u32) -> u8 {
        let at = self.place(address, 1);
        let value = self.window[at];
        self.see(false, address, 1, value.into());
        value
    }

    #[inline(always)]
    pub fn read16(&mut self, address: u32) -> u16 {
        let at = self.place(address, 2);
        let value = u16::from_be_bytes([self.window[at], self.window[at + 1]]);
        self.see(false, address, 2, value.into());
        value
    }

    #[inline(always)]
    pub fn read32(&mut self, address: u32) -> u32 {
        let at = self.place(address, 4);
        let bytes = &self.window[at..at + 4];
        let value = u32::from_be_bytes([bytes[0], bytes[1], bytes[2], bytes[3]]);
        self.see(false, address, 4, value);
        value
    }

    #[inline(always)]
    pub fn write8(&mut self, address: u32, value: u8) {
        let at = self.place_to_store(address, 1);
        self.window[at] = value;
        self.see(true, address, 1, value.into());
    }

    #[inline(always)]
    pub fn write16(&mut self, address: u32, value: u16) {
        let at = self.place_to_store(address, 2);
        self.window[at..at + 2].copy_from_slice(&value.to_be_bytes());
        self.see(true, address, 2, value.into());
    }

    #[inline(always)]
    pub fn write32(&mut self, address: u32, value: u32) {
        let at = self.place_to_store(address, 4);
        self.window[at..at + 4].copy_from_slice(&value.to_be_bytes());
        self.see(true, address, 4, value);
    }

    /// Asked for the serial port's divider alone. With a divider of 0 the pace
    /// is the number that the device carries.
    pub fn peek8(&self, _address: u32) -> u8 {
        0
    }
}

/// Out of the sources' functions, which know no refusal. No message is
/// printed: the call that caught it answers instead.
#[cold]
#[inline(never)]
fn leave(why: Left) -> ! {
    resume_unwind(Box::new(why))
}
