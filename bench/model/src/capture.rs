//! Document 02, [2]: the memory accesses of one minor loop, as a bus probe sees
//! them, and whether a list of them is one that the rules give.

use crate::act::Act;
use crate::device::{big_endian, Device, CR};
use crate::memory::Memory;
use crate::pass::pass;
use crate::Refused;

/// One access of the bus.
#[derive(Clone, Copy, Debug, PartialEq, Eq)]
pub struct Access {
    pub write: bool,
    pub address: u32,
    /// In bytes: 1, 2 or 4.
    pub width: u8,
    /// What was read or written.
    pub value: u32,
}

/// What is wrong with a record of a capture. A record is asked for these in
/// their order; one that the input ends in has no mark, kind, width or value to
/// be asked for.
#[derive(Clone, Copy, Debug, PartialEq, Eq, PartialOrd, Ord)]
pub enum Flaw {
    Mark,
    Kind,
    Width,
    Value,
    Cut,
}

/// What there is to say of a list.
#[derive(Clone, Copy, Debug, PartialEq, Eq)]
pub enum Verdict {
    Allowed,
    /// The first access that is not as the rules have it, and which access they
    /// have there, if they have one. Of a read the value counts for nothing.
    Departs {
        at: usize,
        asked: Option<Access>,
    },
}

/// No refusal: the probe has seen as many accesses as it was to see.
const ENOUGH: Refused = 0;

/// All addresses: a read gives the value that the probe has for it, and each
/// access is put down.
struct Probe<'a> {
    values: &'a [u32],
    most: usize,
    seen: Vec<Access>,
}

impl Probe<'_> {
    fn see(&mut self, access: Access) -> Result<(), Refused> {
        if self.seen.len() == self.most {
            return Err(ENOUGH);
        }
        self.seen.push(access);
        Ok(())
    }
}

impl Memory for Probe<'_> {
    fn load(&mut self, address: u32, width: usize) -> Result<Vec<u8>, Refused> {
        let word = self.values.get(self.seen.len()).copied().unwrap_or_default();
        let bytes = &word.to_be_bytes()[4 - width..];
        let value = big_endian(bytes) as u32;
        self.see(Access { write: false, address, width: width as u8, value })?;
        Ok(bytes.to_vec())
    }

    fn store(&mut self, address: u32, bytes: &[u8]) -> Result<u64, Refused> {
        let value = big_endian(bytes) as u32;
        self.see(Access { write: true, address, width: bytes.len() as u8, value })?;
        Ok(0)
    }
}

/// The accesses of one minor loop with this descriptor and CR, at most so many.
/// Where access n is a read it gives value n, cut to its width; past the values
/// it gives 0. The channel is 0: only a link to the channel itself would show
/// another, and no access shows a link.
pub fn accesses(descriptor: &[u8; 32], cr: u32, values: &[u32], most: usize) -> Vec<Access> {
    let mut device = Device::blank();
    device.table[..32].copy_from_slice(descriptor);
    device.fields[CR] = cr.into();
    let mut probe = Probe { values, most, seen: Vec::new() };
    let mut act = Act::new(device, &mut probe, usize::MAX);
    act.room = usize::MAX;
    // Whether it answers yes or there was enough to see: the list is what counts.
    let _ = pass(&mut act, 0);
    probe.seen
}

/// The list beside the one that the rules give for the values it has: "each
/// list the rules give for that descriptor and the values read, and no other".
pub fn judge(descriptor: &[u8; 32], cr: u32, list: &[Access]) -> Verdict {
    let values: Vec<u32> = list.iter().map(|access| access.value).collect();
    let given = accesses(descriptor, cr, &values, list.len() + 1);
    let alike = list.iter().zip(&given).take_while(|(one, other)| one == other).count();
    if alike == list.len() && alike == given.len() {
        Verdict::Allowed
    } else {
        Verdict::Departs { at: alike, asked: given.get(alike).copied() }
    }
}

/// A list as a file of records.
pub fn records(list: &[Access]) -> Vec<u8> {
    let mut bytes = Vec::with_capacity(16 * list.len());
    for access in list {
        bytes.extend([0x4A, 0x52, if access.write { 5 } else { 4 }, access.width]);
        bytes.extend(access.address.to_be_bytes());
        bytes.extend(u64::from(access.value).to_be_bytes());
    }
    bytes
}

/// The list of a file of records; else which record is the first that is none,
/// and what is wrong with it.
pub fn read(records: &[u8]) -> Result<Vec<Access>, (usize, Flaw)> {
    let rows = records.chunks(16).enumerate();
    rows.map(|(n, row)| read_record(row).map_err(|flaw| (n, flaw))).collect()
}

fn read_record(row: &[u8]) -> Result<Access, Flaw> {
    if row.len() < 16 {
        return Err(Flaw::Cut);
    }
    let (write, width, value) = (row[2] == 5, row[3], big_endian(&row[8..]));
    if row[..2] != [0x4A, 0x52] {
        Err(Flaw::Mark)
    } else if !matches!(row[2], 4 | 5) {
        Err(Flaw::Kind)
    } else if !matches!(width, 1 | 2 | 4) {
        Err(Flaw::Width)
    } else if value >= 256u64.pow(width.into()) {
        Err(Flaw::Value)
    } else {
        let address = big_endian(&row[4..8]) as u32;
        Ok(Access { write, address, width, value: value as u32 })
    }
}
