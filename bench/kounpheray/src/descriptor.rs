//! Transfer control descriptors: 32 big-endian bytes for each channel.

use crate::channel::Channel;
use std::fmt;

/// The length of a descriptor in bytes.
pub const TCD: usize = 32;

/// A channel's descriptor, in the order in which it lies in memory.
///
/// ```
/// use kounpheray::{csr, Size, Tcd};
/// let copy = Tcd {
///     saddr: 0x8000_0000,
///     attr: Tcd::attr(Size::Four, 0, Size::Four, 0),
///     soff: 4,
///     nbytes: 160,
///     daddr: 0x8000_0100,
///     citer: 1,
///     doff: 4,
///     biter: 1,
///     csr: csr::START,
///     ..Tcd::default()
/// };
/// assert_eq!(Tcd::from_bytes(&copy.to_bytes()), copy);
/// ```
#[derive(Clone, Copy, Debug, Default, PartialEq, Eq, Hash)]
pub struct Tcd {
    /// Where the next minor loop reads.
    pub saddr: u32,
    /// Sizes and modulos; see [`Tcd::attr`].
    pub attr: u16,
    /// Added to the source address after each whole source size.
    pub soff: i16,
    /// Bytes of one minor loop; with minor offsets on, 10 bits of them below
    /// a signed offset.
    pub nbytes: u32,
    /// Added to the source address at the end of a major loop.
    pub slast: u32,
    /// Where the next minor loop writes.
    pub daddr: u32,
    /// Minor loops left, with a link in it where bit 15 is set; see
    /// [`Count`].
    pub citer: u16,
    /// Added to the destination address after each whole destination size.
    pub doff: i16,
    /// Added to the destination address at the end of a major loop, or the
    /// address of the next descriptor where [`csr::ESG`] is set.
    pub dlast: u32,
    /// The count that a new major loop begins with.
    pub biter: u16,
    /// Control and status: the bits in [`csr`], and the major link.
    pub csr: u16,
}

/// The bits of [`Tcd::csr`].
pub mod csr {
    /// A software start: the whole major loop, and in the chip's mode one minor
    /// loop.
    pub const START: u16 = 0x0001;
    /// An interrupt at the end of a major loop.
    pub const INTMAJOR: u16 = 0x0002;
    /// An interrupt half-way through a major loop.
    pub const INTHALF: u16 = 0x0004;
    /// Requests are disabled at the end of a major loop.
    pub const DREQ: u16 = 0x0008;
    /// Scatter/gather: the next descriptor is fetched from `dlast`.
    pub const ESG: u16 = 0x0010;
    /// A link to another channel at the end of a major loop.
    pub const MAJORELINK: u16 = 0x0020;
    /// A major loop has begun.
    pub const ACTIVE: u16 = 0x0040;
    /// A major loop has ended.
    pub const DONE: u16 = 0x0080;

    /// The bits for a link to a channel at the end of a major loop.
    pub const fn link_to(channel: crate::Channel) -> u16 {
        MAJORELINK | (channel.number() as u16) << 8
    }
}

/// How many bytes are read or written before the address steps on.
#[derive(Clone, Copy, Debug, PartialEq, Eq, PartialOrd, Ord, Hash)]
pub enum Size {
    /// Single bytes.
    One,
    /// Halfwords.
    Two,
    /// Words.
    Four,
    /// 16 bytes, as four words.
    Sixteen,
    /// 32 bytes, as eight words.
    ThirtyTwo,
}

impl Size {
    /// The size's code in `attr`.
    pub const fn code(self) -> u16 {
        match self {
            Size::One => 0,
            Size::Two => 1,
            Size::Four => 2,
            Size::Sixteen => 4,
            Size::ThirtyTwo => 5,
        }
    }

    /// The size that a code means; 3, 6 and 7 mean single bytes.
    pub const fn from_code(code: u16) -> Size {
        match code & 7 {
            1 => Size::Two,
            2 => Size::Four,
            4 => Size::Sixteen,
            5 => Size::ThirtyTwo,
            _ => Size::One,
        }
    }

    /// The size in bytes.
    pub const fn bytes(self) -> u32 {
        match self {
            Size::One => 1,
            Size::Two => 2,
            Size::Four => 4,
            Size::Sixteen => 16,
            Size::ThirtyTwo => 32,
        }
    }
}

/// A count as it stands in `citer` and `biter`.
#[derive(Clone, Copy, Debug, PartialEq, Eq, Hash)]
pub enum Count {
    /// Up to 32,767 minor loops.
    Plain(u16),
    /// Up to 511 minor loops, with a link to a channel after each but the
    /// last.
    Linked(u16, Channel),
}

impl Count {
    /// The field's 16 bits; a count that is too high is cut.
    ///
    /// ```
    /// use kounpheray::{Channel, Count};
    /// assert_eq!(Count::Linked(5, Channel::new(1)).raw(), 0x8205);
    /// assert_eq!(Count::from_raw(0x8205), Count::Linked(5, Channel::new(1)));
    /// ```
    pub const fn raw(self) -> u16 {
        match self {
            Count::Plain(loops) => loops & 0x7FFF,
            Count::Linked(loops, to) => 0x8000 | (to.number() as u16) << 9 | (loops & 0x01FF),
        }
    }

    /// What the field's 16 bits mean.
    pub const fn from_raw(raw: u16) -> Count {
        if raw & 0x8000 == 0 {
            Count::Plain(raw)
        } else {
            Count::Linked(raw & 0x01FF, Channel::new((raw >> 9 & 0x3F) as u8))
        }
    }

    /// How many minor loops.
    pub const fn loops(self) -> u16 {
        match self {
            Count::Plain(loops) | Count::Linked(loops, _) => loops,
        }
    }
}

impl Tcd {
    /// `attr` from source size and modulo, destination size and modulo. A
    /// modulo of m above 0 lets only the low m bits of an address move.
    pub const fn attr(source: Size, smod: u8, destination: Size, dmod: u8) -> u16 {
        (smod as u16 & 31) << 11 | source.code() << 8 | (dmod as u16 & 31) << 3 | destination.code()
    }

    /// The source size.
    pub const fn source_size(&self) -> Size {
        Size::from_code(self.attr >> 8)
    }

    /// The destination size.
    pub const fn destination_size(&self) -> Size {
        Size::from_code(self.attr)
    }

    /// `nbytes` with a minor offset (20 bits, signed) on the source, the
    /// destination, or both, and up to 1,023 bytes. It counts only with
    /// [`crate::CR_EMLM`] set.
    pub const fn with_minor_offset(bytes: u16, offset: i32, source: bool, dest: bool) -> u32 {
        (source as u32) << 31
            | (dest as u32) << 30
            | (offset as u32 & 0xF_FFFF) << 10
            | (bytes as u32 & 0x3FF)
    }

    /// A descriptor from its 32 bytes.
    pub fn from_bytes(bytes: &[u8; TCD]) -> Tcd {
        let word = |at: usize| bytes[at..at + 4].iter().fold(0, |v, b| v << 8 | u32::from(*b));
        let half = |at: usize| u16::from_be_bytes([bytes[at], bytes[at + 1]]);
        Tcd {
            saddr: word(0x00),
            attr: half(0x04),
            soff: half(0x06) as i16,
            nbytes: word(0x08),
            slast: word(0x0C),
            daddr: word(0x10),
            citer: half(0x14),
            doff: half(0x16) as i16,
            dlast: word(0x18),
            biter: half(0x1C),
            csr: half(0x1E),
        }
    }

    /// The descriptor's 32 bytes.
    pub fn to_bytes(&self) -> [u8; TCD] {
        let mut bytes = [0; TCD];
        for field in TcdField::ALL {
            let at = field.offset();
            let value = field.of(self).to_be_bytes();
            let width = field.width();
            bytes[at..at + width].copy_from_slice(&value[4 - width..]);
        }
        bytes
    }
}

/// A field of a descriptor by name.
#[derive(Clone, Copy, Debug, PartialEq, Eq, PartialOrd, Ord, Hash)]
pub enum TcdField {
    /// Source address.
    Saddr,
    /// Sizes and modulos.
    Attr,
    /// Source offset.
    Soff,
    /// Bytes of a minor loop.
    Nbytes,
    /// Last source offset.
    Slast,
    /// Destination address.
    Daddr,
    /// Current count.
    Citer,
    /// Destination offset.
    Doff,
    /// Last destination offset, or the next descriptor.
    Dlast,
    /// Beginning count.
    Biter,
    /// Control and status.
    Csr,
}

impl TcdField {
    /// All fields in the order in which they lie in memory.
    pub const ALL: [TcdField; 11] = [
        TcdField::Saddr,
        TcdField::Attr,
        TcdField::Soff,
        TcdField::Nbytes,
        TcdField::Slast,
        TcdField::Daddr,
        TcdField::Citer,
        TcdField::Doff,
        TcdField::Dlast,
        TcdField::Biter,
        TcdField::Csr,
    ];

    pub(crate) const fn offset(self) -> usize {
        match self {
            TcdField::Saddr => 0x00,
            TcdField::Attr => 0x04,
            TcdField::Soff => 0x06,
            TcdField::Nbytes => 0x08,
            TcdField::Slast => 0x0C,
            TcdField::Daddr => 0x10,
            TcdField::Citer => 0x14,
            TcdField::Doff => 0x16,
            TcdField::Dlast => 0x18,
            TcdField::Biter => 0x1C,
            TcdField::Csr => 0x1E,
        }
    }

    /// The field's width in bytes: 2 or 4.
    pub const fn width(self) -> usize {
        match self {
            TcdField::Saddr
            | TcdField::Nbytes
            | TcdField::Slast
            | TcdField::Daddr
            | TcdField::Dlast => 4,
            _ => 2,
        }
    }

    /// The field's value in a descriptor.
    pub const fn of(self, tcd: &Tcd) -> u32 {
        match self {
            TcdField::Saddr => tcd.saddr,
            TcdField::Attr => tcd.attr as u32,
            TcdField::Soff => tcd.soff as u16 as u32,
            TcdField::Nbytes => tcd.nbytes,
            TcdField::Slast => tcd.slast,
            TcdField::Daddr => tcd.daddr,
            TcdField::Citer => tcd.citer as u32,
            TcdField::Doff => tcd.doff as u16 as u32,
            TcdField::Dlast => tcd.dlast,
            TcdField::Biter => tcd.biter as u32,
            TcdField::Csr => tcd.csr as u32,
        }
    }
}

impl fmt::Display for TcdField {
    fn fmt(&self, to: &mut fmt::Formatter<'_>) -> fmt::Result {
        to.write_str(match self {
            TcdField::Saddr => "saddr",
            TcdField::Attr => "attr",
            TcdField::Soff => "soff",
            TcdField::Nbytes => "nbytes",
            TcdField::Slast => "slast",
            TcdField::Daddr => "daddr",
            TcdField::Citer => "citer",
            TcdField::Doff => "doff",
            TcdField::Dlast => "dlast",
            TcdField::Biter => "biter",
            TcdField::Csr => "csr",
        })
    }
}
