//! The device image of docs/ABI.md, as far as the oracle reads and writes it.

/// The descriptor table stands first.
pub(crate) const TABLE: usize = 2048;

/// 1 where masks are ignored.
pub(crate) const IGNORE_MASKS: usize = 2048;

const FIELDS: usize = 2064;

pub(crate) const CR: usize = 0;
pub(crate) const ERQ: usize = 1;
pub(crate) const EEI: usize = 2;
pub(crate) const INT: usize = 3;
pub(crate) const ERR: usize = 4;
pub(crate) const KICK: usize = 5;
pub(crate) const DEFERRED: usize = 6;
pub(crate) const DEADLINE: usize = 7;
pub(crate) const LEVEL: usize = 8;
pub(crate) const STANDING: usize = 9;
pub(crate) const CONTROLLER: usize = 16;
pub(crate) const BUSY: usize = 64;
pub(crate) const MAJORS: usize = 128;
pub(crate) const PENDING: usize = 192;
pub(crate) const SOURCE_LEVEL: usize = 256;
pub(crate) const TAKEN: usize = 512;

pub(crate) fn field(image: &[u8], number: usize) -> u64 {
    let at = FIELDS + 8 * number;
    image[at..at + 8].iter().fold(0, |value, byte| value << 8 | u64::from(*byte))
}

pub(crate) fn set_field(image: &mut [u8], number: usize, value: u64) {
    let at = FIELDS + 8 * number;
    image[at..at + 8].copy_from_slice(&value.to_be_bytes());
}
