//! What the units of a transfer meet.

use crate::device::big_endian;
use crate::Refused;

pub(crate) trait Memory {
    /// The bytes of a unit.
    fn load(&mut self, address: u32, width: usize) -> Result<Vec<u8>, Refused>;

    /// Stores a unit; what stood there.
    fn store(&mut self, address: u32, bytes: &[u8]) -> Result<u64, Refused>;
}

/// A part of the guest's memory, from the address of its first byte.
pub(crate) struct Window {
    pub(crate) base: u32,
    pub(crate) bytes: Vec<u8>,
}

impl Window {
    /// The bytes of a unit where they lie.
    fn unit(&mut self, address: u32, width: usize) -> Result<&mut [u8], Refused> {
        let at = address.checked_sub(self.base).ok_or(9)? as usize;
        self.bytes.get_mut(at..at + width).ok_or(9)
    }
}

impl Memory for Window {
    fn load(&mut self, address: u32, width: usize) -> Result<Vec<u8>, Refused> {
        Ok(self.unit(address, width)?.to_vec())
    }

    fn store(&mut self, address: u32, bytes: &[u8]) -> Result<u64, Refused> {
        let unit = self.unit(address, bytes.len())?;
        let old = big_endian(unit);
        unit.copy_from_slice(bytes);
        Ok(old)
    }
}
