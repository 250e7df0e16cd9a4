//! Captures: the memory accesses of one minor loop, as a bus probe puts them
//! down, and the judge that says whether the rules allow them.

use crate::descriptor::Tcd;
use crate::ffi;
use crate::journal::{MARK, RECORD};
use crate::refusal::Refusal;
use std::error::Error;
use std::fmt;

/// The kinds of record, as they stand in byte 2.
const READ: u8 = 4;
const WRITE: u8 = 5;

/// What one access moved. The width is in the type: no value is wider.
#[derive(Clone, Copy, Debug, PartialEq, Eq, Hash)]
pub enum Unit {
    /// A byte.
    One(u8),
    /// A halfword.
    Two(u16),
    /// A word.
    Four(u32),
}

impl Unit {
    /// The width in bytes: 1, 2 or 4.
    pub const fn width(self) -> u8 {
        match self {
            Unit::One(_) => 1,
            Unit::Two(_) => 2,
            Unit::Four(_) => 4,
        }
    }

    /// The value.
    pub const fn value(self) -> u32 {
        match self {
            Unit::One(value) => value as u32,
            Unit::Two(value) => value as u32,
            Unit::Four(value) => value,
        }
    }
}

impl From<u8> for Unit {
    fn from(value: u8) -> Unit {
        Unit::One(value)
    }
}

impl From<u16> for Unit {
    fn from(value: u16) -> Unit {
        Unit::Two(value)
    }
}

impl From<u32> for Unit {
    fn from(value: u32) -> Unit {
        Unit::Four(value)
    }
}

/// Whether an access read or wrote.
#[derive(Clone, Copy, Debug, PartialEq, Eq, Hash)]
pub enum AccessKind {
    /// It read.
    Read,
    /// It wrote.
    Write,
}

/// One access of the bus.
#[derive(Clone, Copy, Debug, PartialEq, Eq, Hash)]
pub struct Access {
    /// Whether it read or wrote.
    pub kind: AccessKind,
    /// The address of its first byte.
    pub address: u32,
    /// What it read or wrote.
    pub unit: Unit,
}

impl Access {
    fn record(self) -> [u8; RECORD] {
        let kind = match self.kind {
            AccessKind::Read => READ,
            AccessKind::Write => WRITE,
        };
        let mut record = [0; RECORD];
        record[..2].copy_from_slice(&MARK);
        record[2] = kind;
        record[3] = self.unit.width();
        record[4..8].copy_from_slice(&self.address.to_be_bytes());
        record[12..].copy_from_slice(&self.unit.value().to_be_bytes());
        record
    }

    /// The access of one record, which may be cut.
    fn from_record(record: &[u8]) -> Result<Access, Flaw> {
        if record.len() < RECORD {
            return Err(Flaw::Cut);
        }
        if record[..2] != MARK {
            return Err(Flaw::Mark);
        }
        let kind = match record[2] {
            READ => AccessKind::Read,
            WRITE => AccessKind::Write,
            _ => return Err(Flaw::Kind),
        };
        let number = |bytes: &[u8]| bytes.iter().fold(0, |v, byte| v << 8 | u64::from(*byte));
        let value = number(&record[8..RECORD]);
        let unit = match record[3] {
            1 => u8::try_from(value).map(Unit::One),
            2 => u16::try_from(value).map(Unit::Two),
            4 => u32::try_from(value).map(Unit::Four),
            _ => return Err(Flaw::Width),
        };
        let unit = unit.map_err(|_| Flaw::Value)?;
        Ok(Access { kind, address: number(&record[4..8]) as u32, unit })
    }
}

impl fmt::Display for Access {
    fn fmt(&self, to: &mut fmt::Formatter<'_>) -> fmt::Result {
        let kind = match self.kind {
            AccessKind::Read => "read",
            AccessKind::Write => "write",
        };
        let (width, value) = (self.unit.width(), self.unit.value());
        let (digits, s) = (2 * usize::from(width), if width == 1 { "" } else { "s" });
        write!(to, "a {kind} of {width} byte{s}, {value:0digits$x} at {:08x}", self.address)
    }
}

/// What is wrong with a record.
#[derive(Clone, Copy, Debug, PartialEq, Eq, PartialOrd, Ord, Hash)]
pub enum Flaw {
    /// The mark is not 4A 52.
    Mark,
    /// The kind is neither 4 (a read) nor 5 (a write).
    Kind,
    /// The width is not 1, 2 or 4.
    Width,
    /// The value is wider than the width.
    Value,
    /// The input ends inside the record.
    Cut,
}

impl fmt::Display for Flaw {
    fn fmt(&self, to: &mut fmt::Formatter<'_>) -> fmt::Result {
        to.write_str(match self {
            Flaw::Mark => "the mark is not 4a 52",
            Flaw::Kind => "the kind is neither 4 (a read) nor 5 (a write)",
            Flaw::Width => "the width is not 1, 2 or 4",
            Flaw::Value => "the value is wider than the width",
            Flaw::Cut => "cut short, a record has 16 bytes",
        })
    }
}

/// Bytes that are no capture: refusal 22, with its place and no verdict.
#[derive(Clone, Copy, Debug, PartialEq, Eq)]
pub struct NotACapture {
    /// The first record that is malformed or cut, counted from 0.
    pub record: u64,
    /// What is wrong with it.
    pub flaw: Flaw,
}

impl NotACapture {
    /// The documents' refusal for it.
    pub const fn refusal(self) -> Refusal {
        Refusal::Malformed
    }
}

impl fmt::Display for NotACapture {
    fn fmt(&self, to: &mut fmt::Formatter<'_>) -> fmt::Result {
        write!(to, "refusal {} at record {}: {}", self.refusal().number(), self.record, self.flaw)
    }
}

impl Error for NotACapture {}

/// What the judge says of a list of accesses.
#[derive(Clone, Copy, Debug, PartialEq, Eq, Hash)]
pub enum Judged {
    /// The rules give this list for the descriptor, CR and the values read.
    Allowed,
    /// The first access, counted from 0, that is not as the rules have it. For
    /// a list that ends too early it is the list's length; for one that goes on
    /// too long, the first access too many. It is never above 8,388,640, the
    /// length of the longest list that the rules give.
    DepartsAt(u64),
}

/// The memory accesses of one channel's minor loop, in their order: reads and
/// writes, each with address, width and value. docs/CAPTURE.md has the layout
/// of its records.
///
/// Document 01's example 'Run only', as a probe sees it:
///
/// ```
/// use kounpheray::{csr, Capture, Judged, Size, Tcd};
///
/// let descriptor = Tcd {
///     saddr: 0x8000_0000,
///     attr: Tcd::attr(Size::Four, 0, Size::Four, 0),
///     soff: 4,
///     nbytes: 4,
///     daddr: 0x8000_0004,
///     citer: 1,
///     doff: 4,
///     biter: 1,
///     csr: csr::START,
///     ..Tcd::default()
/// };
/// let mut capture = Capture::new();
/// capture.read(0x8000_0000, 0x1122_3344u32).write(0x8000_0004, 0x1122_3344u32);
/// assert_eq!(capture.judge(&descriptor, 0), Judged::Allowed);
///
/// // A board that wrote something else than it had read:
/// let mut wrong = Capture::new();
/// wrong.read(0x8000_0000, 0x1122_3344u32).write(0x8000_0004, 0x1122_3345u32);
/// assert_eq!(wrong.judge(&descriptor, 0), Judged::DepartsAt(1));
///
/// // The records, as they stand in a file, and back:
/// assert_eq!(capture.records()[..8], [0x4A, 0x52, 4, 4, 0x80, 0, 0, 0]);
/// assert_eq!(Capture::from_records(capture.records())?, capture);
/// # Ok::<(), kounpheray::NotACapture>(())
/// ```
#[derive(Clone, Debug, Default, PartialEq, Eq)]
pub struct Capture {
    /// Whole records, none of them malformed.
    records: Vec<u8>,
}

impl Capture {
    /// A capture of no access.
    pub fn new() -> Capture {
        Capture::default()
    }

    /// A capture from the bytes of its records, if all are whole and sound;
    /// else the first that is not.
    ///
    /// ```
    /// use kounpheray::{Capture, Flaw};
    /// let mut capture = Capture::new();
    /// capture.read(0, 1u8).write(4, 1u8);
    /// let mut bytes = capture.records().to_vec();
    /// bytes.push(0x4A);
    /// let told = Capture::from_records(&bytes).unwrap_err();
    /// assert_eq!((told.record, told.flaw), (2, Flaw::Cut));
    /// assert_eq!(told.refusal().number(), 22);
    /// ```
    pub fn from_records(records: &[u8]) -> Result<Capture, NotACapture> {
        for (n, record) in records.chunks(RECORD).enumerate() {
            Access::from_record(record).map_err(|flaw| NotACapture { record: n as u64, flaw })?;
        }
        Ok(Capture { records: records.to_vec() })
    }

    /// Adds a read and what it gave: a `u8`, a `u16` or a `u32`, by its width.
    pub fn read(&mut self, address: u32, gave: impl Into<Unit>) -> &mut Capture {
        self.push(Access { kind: AccessKind::Read, address, unit: gave.into() })
    }

    /// Adds a write: a `u8`, a `u16` or a `u32`, by its width.
    pub fn write(&mut self, address: u32, wrote: impl Into<Unit>) -> &mut Capture {
        self.push(Access { kind: AccessKind::Write, address, unit: wrote.into() })
    }

    /// Adds an access.
    pub fn push(&mut self, access: Access) -> &mut Capture {
        self.records.extend(access.record());
        self
    }

    /// How many accesses there are.
    pub fn len(&self) -> usize {
        self.records.len() / RECORD
    }

    /// Whether there is none: what a minor loop with a count of 0 gives.
    pub fn is_empty(&self) -> bool {
        self.records.is_empty()
    }

    /// The accesses, in their order.
    pub fn accesses(&self) -> impl DoubleEndedIterator<Item = Access> + ExactSizeIterator + '_ {
        self.records
            .chunks_exact(RECORD)
            .map(|record| Access::from_record(record).expect("a capture has sound records"))
    }

    /// The bytes of its records, to be kept in a file.
    pub fn records(&self) -> &[u8] {
        &self.records
    }

    /// Whether the rules allow this list for one minor loop with this
    /// descriptor and CR.
    pub fn judge(&self, descriptor: &Tcd, cr: u32) -> Judged {
        Capture::judge_records(&self.records, descriptor, cr).expect("a capture has sound records")
    }

    /// The same for records that come from elsewhere, as from a file. They are
    /// looked through to their end before there is a verdict: the first that is
    /// malformed or cut is a refusal, also behind a departure.
    ///
    /// ```
    /// use kounpheray::{Capture, Flaw, Judged, Tcd};
    /// // A count of 0: nothing happens, and no access is allowed.
    /// let nothing = Tcd::default();
    /// assert_eq!(Capture::judge_records(&[], &nothing, 0), Ok(Judged::Allowed));
    /// let told = Capture::judge_records(b"not a capture..", &nothing, 0).unwrap_err();
    /// assert_eq!(told.to_string(), "refusal 22 at record 0: cut short, a record has 16 bytes");
    /// ```
    pub fn judge_records(records: &[u8], descriptor: &Tcd, cr: u32) -> Result<Judged, NotACapture> {
        let answer = ffi::capture(&descriptor.to_bytes(), cr, records);
        match answer.refusal() {
            None if answer.departs() => Ok(Judged::DepartsAt(answer.low().into())),
            None => Ok(Judged::Allowed),
            Some(_) => Err(first_flaw(records, answer.low())),
        }
    }
}

/// The record that was refused, by the low 32 bits of its number: records
/// before it are sound, so of those with these bits it is the first that isn't.
fn first_flaw(records: &[u8], low: u32) -> NotACapture {
    let mut rows = records.chunks(RECORD).enumerate().skip(low as usize).step_by(1 << 32);
    let first = rows.find_map(|(n, row)| {
        let flaw = Access::from_record(row).err()?;
        Some(NotACapture { record: n as u64, flaw })
    });
    first.expect("the entry refuses no sound record")
}

impl Extend<Access> for Capture {
    fn extend<T: IntoIterator<Item = Access>>(&mut self, accesses: T) {
        for access in accesses {
            self.push(access);
        }
    }
}

impl FromIterator<Access> for Capture {
    fn from_iter<T: IntoIterator<Item = Access>>(accesses: T) -> Capture {
        let mut capture = Capture::new();
        capture.extend(accesses);
        capture
    }
}
