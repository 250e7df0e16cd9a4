//! Reading a journal: which act made which stores, and for which channel.
//!
//! A journal is a row of groups, one for each standing act, oldest first. A
//! group is a row of records, one for each store that the act made, with the
//! value that stood there before. The engine alone writes journals and undoes
//! them; this module only reads.

use crate::channel::Channel;
use crate::descriptor::{TcdField, TCD};
use crate::field::Field;
use std::error::Error;
use std::fmt;
use std::ops::Range;

/// The length of a record in bytes.
pub const RECORD: usize = 16;

/// What every record begins with.
pub(crate) const MARK: [u8; 2] = [0x4A, 0x52];

/// A store into the window.
#[derive(Clone, Copy, Debug, PartialEq, Eq)]
pub struct MemoryStore {
    /// The address of its first byte.
    pub address: u32,
    /// Its width in bytes: 1, 2 or 4.
    pub width: u8,
    /// What stood there before.
    pub old: u32,
}

impl MemoryStore {
    /// Whether the store covers the byte at an address.
    pub fn covers(&self, address: u32) -> bool {
        address.wrapping_sub(self.address) < u32::from(self.width)
    }
}

/// A store into the descriptor table.
#[derive(Clone, Copy, Debug, PartialEq, Eq)]
pub struct TableStore {
    pub(crate) place: u16,
    /// Its width in bytes: 1, 2, 4 or 8.
    pub width: u8,
    /// What stood there before.
    pub old: u64,
}

impl TableStore {
    /// The channel in whose descriptor the store begins.
    pub fn channel(&self) -> Channel {
        Channel::new((usize::from(self.place) / TCD) as u8)
    }

    /// The fields of that descriptor of which it covers a byte.
    pub fn fields(&self) -> impl Iterator<Item = TcdField> {
        let first = usize::from(self.place) % TCD;
        let end = first + usize::from(self.width);
        TcdField::ALL
            .into_iter()
            .filter(move |field| field.offset() < end && first < field.offset() + field.width())
    }

    /// Whether it runs on into the next channel's descriptor, as a guest's
    /// unaligned write can.
    pub fn runs_over(&self) -> bool {
        usize::from(self.place) % TCD + usize::from(self.width) > TCD
    }

    /// Puts the old value back into a table.
    pub(crate) fn undo(&self, table: &mut [u8]) {
        let at = usize::from(self.place);
        let width = usize::from(self.width);
        table[at..at + width].copy_from_slice(&self.old.to_be_bytes()[8 - width..]);
    }
}

/// One record.
#[derive(Clone, Copy, Debug, PartialEq, Eq)]
pub enum Record {
    /// A store into the window.
    Memory(MemoryStore),
    /// A store into the descriptor table.
    Table(TableStore),
    /// A field that the act changed, with its value at entry.
    Field(Field, u64),
}

impl fmt::Display for Record {
    fn fmt(&self, to: &mut fmt::Formatter<'_>) -> fmt::Result {
        match self {
            Record::Memory(store) => {
                let digits = 2 * usize::from(store.width);
                write!(to, "memory {:08x}: was {:0digits$x}", store.address, store.old)
            }
            Record::Table(store) => {
                write!(to, "descriptor of {}:", store.channel())?;
                for field in store.fields() {
                    write!(to, " {field}")?;
                }
                let digits = 2 * usize::from(store.width);
                write!(to, ": was {:0digits$x}", store.old)
            }
            Record::Field(field, old) => write!(to, "{field}: was {old:x}"),
        }
    }
}

/// Bytes that are no journal, and where they cease to be one.
#[derive(Clone, Copy, Debug, PartialEq, Eq)]
pub struct NotAJournal {
    /// How many records before it are sound.
    pub record: usize,
}

impl fmt::Display for NotAJournal {
    fn fmt(&self, to: &mut fmt::Formatter<'_>) -> fmt::Result {
        write!(to, "record {} is damaged or its group has no end", self.record)
    }
}

impl Error for NotAJournal {}

/// A journal's used part, read.
#[derive(Clone, Debug, PartialEq, Eq)]
pub struct Journal {
    records: Vec<Record>,
    /// For each record, the channel whose pass it belongs to; see `passes`.
    channels: Vec<Option<Channel>>,
    groups: Vec<Range<usize>>,
}

/// One act's group.
#[derive(Clone, Copy, Debug, PartialEq, Eq)]
pub struct Group<'a> {
    /// Which of the standing acts, counted from 0.
    pub act: usize,
    records: &'a [Record],
    channels: &'a [Option<Channel>],
}

/// Where a byte of the window came from.
#[derive(Clone, Copy, Debug, PartialEq, Eq)]
pub struct Stored {
    /// Which of the standing acts stored it, counted from 0.
    pub act: usize,
    /// Which record of that act's group, counted from 0.
    pub record: usize,
    /// The channel that moved it.
    pub channel: Channel,
    /// The store itself.
    pub store: MemoryStore,
}

impl Journal {
    /// Reads the used part of a journal. It tells no mode: a record of a priority
    /// is read, though in the old mode the engine would call it damaged.
    ///
    /// ```
    /// use kounpheray::Journal;
    /// // An act that changed nothing leaves its end record alone.
    /// let mut bytes = [0; 16];
    /// bytes[..3].copy_from_slice(&[0x4A, 0x52, 3]);
    /// let journal = Journal::read(&bytes).unwrap();
    /// assert_eq!(journal.groups().count(), 1);
    /// assert_eq!(Journal::read(&[0; 16]).unwrap_err().record, 0);
    /// ```
    pub fn read(used: &[u8]) -> Result<Journal, NotAJournal> {
        let mut records = Vec::new();
        let mut groups = Vec::new();
        let mut begun = 0;
        let mut rows = used.chunks_exact(RECORD);
        for (n, row) in rows.by_ref().enumerate() {
            let damaged = NotAJournal { record: n };
            match read_record(row).ok_or(damaged)? {
                Row::Store(record) => records.push(record),
                Row::End(length) if length == (records.len() - begun) as u64 => {
                    groups.push(begun..records.len());
                    begun = records.len();
                }
                Row::End(_) => return Err(damaged),
            }
        }
        let whole = begun == records.len() && rows.remainder().is_empty();
        if !whole {
            return Err(NotAJournal { record: used.len() / RECORD });
        }
        let channels = passes(&records);
        Ok(Journal { records, channels, groups })
    }

    /// The groups, oldest first.
    pub fn groups(&self) -> impl DoubleEndedIterator<Item = Group<'_>> + ExactSizeIterator {
        self.groups.iter().enumerate().map(|(act, range)| self.group_in(act, range.clone()))
    }

    /// The group of one standing act.
    pub fn group(&self, act: usize) -> Option<Group<'_>> {
        self.groups.get(act).map(|range| self.group_in(act, range.clone()))
    }

    fn group_in(&self, act: usize, range: Range<usize>) -> Group<'_> {
        Group { act, records: &self.records[range.clone()], channels: &self.channels[range] }
    }

    /// The latest standing store to a byte of the window.
    pub fn last_store(&self, address: u32) -> Option<Stored> {
        self.groups().rev().find_map(|group| group.last_store(address))
    }
}

impl<'a> Group<'a> {
    /// The records, in the order in which the stores were made.
    pub fn records(&self) -> &'a [Record] {
        self.records
    }

    /// The stores into the window, each with the channel that made it.
    pub fn stores(self) -> impl DoubleEndedIterator<Item = Stored> + 'a {
        (0..self.records.len()).filter_map(move |record| self.stored(record))
    }

    /// The act's latest store to a byte of the window.
    pub fn last_store(self, address: u32) -> Option<Stored> {
        self.stores().rev().find(|stored| stored.store.covers(address))
    }

    fn stored(self, record: usize) -> Option<Stored> {
        match (self.records[record], self.channels[record]) {
            (Record::Memory(store), Some(channel)) => {
                Some(Stored { act: self.act, record, channel, store })
            }
            _ => None,
        }
    }
}

/// The channel of each record's pass. A pass stores into the window first and
/// then into its own descriptor, with no other channel's store between: so a
/// memory record belongs to the channel of the next table record.
fn passes(records: &[Record]) -> Vec<Option<Channel>> {
    let mut next = None;
    let mut channels = vec![None; records.len()];
    for (record, channel) in records.iter().zip(&mut channels).rev() {
        match record {
            Record::Memory(_) => {}
            Record::Table(store) => next = Some(store.channel()),
            Record::Field(..) => next = None,
        }
        *channel = next;
    }
    channels
}

enum Row {
    Store(Record),
    End(u64),
}

fn read_record(row: &[u8]) -> Option<Row> {
    if row[..2] != MARK {
        return None;
    }
    let width = row[3];
    let place = row[4..8].iter().fold(0, |v, byte| v << 8 | u32::from(*byte));
    let old = row[8..].iter().fold(0, |v, byte| v << 8 | u64::from(*byte));
    let fits = width == 8 || old >> (8 * u32::from(width.min(7))) == 0;
    match (row[2], width) {
        (0, 1 | 2 | 4) if fits => {
            Some(Row::Store(Record::Memory(MemoryStore { address: place, width, old: old as u32 })))
        }
        (1, 1 | 2 | 4 | 8) if fits && u64::from(place) + u64::from(width) <= 64 * TCD as u64 => {
            Some(Row::Store(Record::Table(TableStore { place: place as u16, width, old })))
        }
        (2, 8) => {
            let field = Field::from_number(u16::try_from(place).ok()?)?;
            field.fits(old).then_some(Row::Store(Record::Field(field, old)))
        }
        (3, 0) if place == 0 => Some(Row::End(old)),
        _ => None,
    }
}
