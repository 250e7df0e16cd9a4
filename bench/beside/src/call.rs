//! The calls, and the refusals that can be told before anything is done.

use crate::recorded::place;
use kounpheray::{Channel, Field, Time};

/// A call of the engine with its arguments.
#[derive(Clone, Copy, Debug, PartialEq, Eq)]
pub enum Call {
    Read { address: u32, size: u32 },
    Write { address: u32, size: u32, value: u32 },
    Inputs { standing: u64, lines: [u64; 3] },
    Pending { channel: u32, count: u32 },
    Run(Time),
    Service(Time),
    Acknowledge { ipl: u8 },
    TakeBack,
}

impl Call {
    pub fn name(self) -> &'static str {
        match self {
            Call::Read { .. } => "read",
            Call::Write { .. } => "write",
            Call::Inputs { .. } => "inputs",
            Call::Pending { .. } => "pending",
            Call::Run(_) => "run",
            Call::Service(_) => "service",
            Call::Acknowledge { .. } => "acknowledge",
            Call::TakeBack => "take back",
        }
    }

    /// Run and service move bytes and use staging.
    pub fn moves(self) -> bool {
        matches!(self, Call::Run(_) | Call::Service(_))
    }

    /// Every call that writes a group.
    pub fn is_act(self) -> bool {
        !matches!(self, Call::Read { .. } | Call::TakeBack)
    }

    /// The refusal among 1, 2 and 4 that an address and size give. Whether
    /// there is such a register (3) is left to the Rust.
    fn of_address(self) -> Option<u8> {
        let (address, size, write) = match self {
            Call::Read { address, size } => (address, size, false),
            Call::Write { address, size, .. } => (address, size, true),
            _ => return None,
        };
        if !matches!(size, 1 | 2 | 4) {
            return Some(1);
        }
        let offset = address & 0x3FFF;
        match address & 0xFFFF_C000 {
            0xFC04_4000 => {
                let table = (0x1000..0x1800).contains(&offset);
                (table && offset + size > 0x1800).then_some(4)
            }
            0xFC04_8000 | 0xFC04_C000 | 0xFC05_0000 => {
                let words = (0x08..0x18).contains(&offset);
                (write && words && offset % 4 + size > 4).then_some(4)
            }
            _ => Some(2),
        }
    }

    /// The refusal that the arguments alone give, register (3) excepted: the
    /// first in number order.
    pub fn early(self, base: u32, window: usize, journal: usize, used: u64) -> Option<u8> {
        if let Some(number) = self.of_address() {
            return Some(number);
        }
        let memory = self.moves() || self == Call::TakeBack;
        let end = u64::from(base) + window as u64;
        if memory && (window == 0 || window > 1 << 24 || end > 1 << 32) {
            return Some(5);
        }
        let written = self.is_act() || self == Call::TakeBack;
        let unsound = journal > 1 << 28 || used % 16 != 0 || used > journal as u64;
        if written && unsound {
            return Some(6);
        }
        match self {
            Call::Run(time) | Call::Service(time)
                if time.now > 1 << 62 || time.pace > 1_000_000 =>
            {
                Some(7)
            }
            Call::Pending { channel, .. } if channel > 63 => Some(8),
            Call::TakeBack if used == 0 => Some(12),
            _ => None,
        }
    }

    /// The refusal that comes next, for what a device's image holds: 14, if
    /// the sum passes 2^32 - 1.
    pub fn barred(self, image: &[u8]) -> Option<u8> {
        let Call::Pending { channel, count } = self else {
            return None;
        };
        let at = place(Field::Pending(Channel::new(channel as u8)));
        let stands = image[at..at + 8].iter().fold(0, |value, byte| value << 8 | u64::from(*byte));
        (stands + u64::from(count) > u64::from(u32::MAX)).then_some(14)
    }
}
