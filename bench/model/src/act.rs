//! An act as it goes on: what it has stored so far, and the record of each
//! store.

use crate::device::{big_endian, Device, NUMBERS};
use crate::memory::Memory;
use crate::Refused;

const MEMORY: u8 = 0;
const TABLE: u8 = 1;
const FIELD: u8 = 2;
const END: u8 = 3;

pub(crate) struct Act<'a> {
    pub(crate) device: Device,
    at_entry: Device,
    memory: &'a mut dyn Memory,
    /// How many bytes a pass of unequal sizes may read.
    pub(crate) staging: usize,
    /// How many bytes the group may have.
    pub(crate) room: usize,
    records: Vec<u8>,
}

impl Act<'_> {
    pub(crate) fn new(device: Device, memory: &mut dyn Memory, staging: usize) -> Act<'_> {
        let at_entry = device.clone();
        Act { device, at_entry, memory, staging, room: 0, records: Vec::new() }
    }

    fn record(&mut self, kind: u8, width: u8, place: u32, old: u64) -> Result<(), Refused> {
        if self.records.len() + 16 > self.room {
            return Err(11);
        }
        self.records.extend([0x4A, 0x52, kind, width]);
        self.records.extend(place.to_be_bytes());
        self.records.extend(old.to_be_bytes());
        Ok(())
    }

    /// The bytes of a unit of memory.
    pub(crate) fn load(&mut self, address: u32, width: usize) -> Result<Vec<u8>, Refused> {
        self.memory.load(address, width)
    }

    /// Stores a unit to memory. That it is there before its record is does not
    /// show: what a refused act stored is thrown away.
    pub(crate) fn store(&mut self, address: u32, bytes: &[u8]) -> Result<(), Refused> {
        let old = self.memory.store(address, bytes)?;
        self.record(MEMORY, bytes.len() as u8, address, old)
    }

    /// Stores to the descriptor table.
    pub(crate) fn put(&mut self, at: usize, bytes: &[u8]) -> Result<(), Refused> {
        let old = big_endian(&self.device.table[at..at + bytes.len()]);
        self.record(TABLE, bytes.len() as u8, at as u32, old)?;
        self.device.table[at..at + bytes.len()].copy_from_slice(bytes);
        Ok(())
    }

    /// Stores a whole descriptor: four stores of eight bytes.
    pub(crate) fn put_descriptor(&mut self, channel: usize, bytes: &[u8]) -> Result<(), Refused> {
        for (n, eight) in bytes.chunks(8).enumerate() {
            self.put(32 * channel + 8 * n, eight)?;
        }
        Ok(())
    }

    /// The group: a record for each store, one for each field that differs from
    /// entry, in number order, and the end.
    pub(crate) fn group(&mut self) -> Result<Vec<u8>, Refused> {
        for number in 0..NUMBERS {
            let old = self.at_entry.fields[number];
            if self.device.fields[number] != old {
                self.record(FIELD, 8, number as u32, old)?;
            }
        }
        self.record(END, 0, 0, self.records.len() as u64 / 16)?;
        Ok(std::mem::take(&mut self.records))
    }
}
