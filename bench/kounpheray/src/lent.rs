//! What a call is lent besides the device, and its time.

/// A memory lent to one call: its first address and its bytes.
#[derive(Debug)]
pub struct Lent<'a> {
    /// The address of the window's first byte.
    pub base: u32,
    /// The window's bytes.
    pub window: &'a mut [u8],
}

/// The journal lent to one call, and how much of it is used.
#[derive(Debug)]
pub struct LentJournal<'a> {
    /// The whole journal.
    pub bytes: &'a mut [u8],
    /// The used length at entry.
    pub used: u64,
}

/// The time of a run or a service.
#[derive(Clone, Copy, Debug, PartialEq, Eq)]
pub struct Time {
    /// The present, in the caller's unit; at most 2^62.
    pub now: u64,
    /// How long channel 35 takes for one byte, in that unit; at most 1,000,000.
    pub pace: u64,
}
