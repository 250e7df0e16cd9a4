//! The device's fields by name. The journal and the image count them; their
//! numbers stay in this module and in [`crate::image`].

use crate::channel::{Channel, Controller, Source};
use crate::settings::Mode;
use std::fmt;

/// A field of the device.
#[derive(Clone, Copy, Debug, PartialEq, Eq, PartialOrd, Ord, Hash)]
#[non_exhaustive]
pub enum Field {
    /// Control register; bit 7 turns minor offsets on.
    Cr,
    /// Channels whose requests are enabled.
    Erq,
    /// Channels whose errors interrupt.
    Eei,
    /// Channels that interrupt.
    Int,
    /// Channels with an error.
    Err,
    /// Channels with work waiting.
    Kick,
    /// Channels that asked while they were busy.
    Deferred,
    /// The time by which the caller is to come back.
    Deadline,
    /// The interrupt level that the processor sees.
    Level,
    /// Channels with a standing request.
    Standing,
    /// A controller's masks: a set bit holds its line back.
    Imr(Controller),
    /// A controller's forced sources.
    Frc(Controller),
    /// A controller's lines.
    Lines(Controller),
    /// A controller's configuration word.
    Iconfig(Controller),
    /// The time until which a channel is busy.
    Busy(Channel),
    /// How many major loops a channel has ended.
    Majors(Channel),
    /// How many requests a channel has pending.
    Pending(Channel),
    /// A source's level byte.
    SourceLevel(Controller, Source),
    /// How often a source's interrupt was taken.
    Taken(Controller, Source),
    /// A channel's priority; a field of the chip's mode alone.
    Priority(Channel),
}

const SCALARS: [Field; 10] = [
    Field::Cr,
    Field::Erq,
    Field::Eei,
    Field::Int,
    Field::Err,
    Field::Kick,
    Field::Deferred,
    Field::Deadline,
    Field::Level,
    Field::Standing,
];

impl Field {
    /// The documents' number of the field.
    pub const fn number(self) -> u16 {
        match self {
            Field::Cr => 0,
            Field::Erq => 1,
            Field::Eei => 2,
            Field::Int => 3,
            Field::Err => 4,
            Field::Kick => 5,
            Field::Deferred => 6,
            Field::Deadline => 7,
            Field::Level => 8,
            Field::Standing => 9,
            Field::Imr(c) => 16 + 4 * c.number() as u16,
            Field::Frc(c) => 17 + 4 * c.number() as u16,
            Field::Lines(c) => 18 + 4 * c.number() as u16,
            Field::Iconfig(c) => 19 + 4 * c.number() as u16,
            Field::Busy(channel) => 64 + channel.number() as u16,
            Field::Majors(channel) => 128 + channel.number() as u16,
            Field::Pending(channel) => 192 + channel.number() as u16,
            Field::SourceLevel(c, s) => 256 + 64 * c.number() as u16 + s.number() as u16,
            Field::Taken(c, s) => 576 + 64 * c.number() as u16 + s.number() as u16,
            Field::Priority(channel) => 768 + channel.number() as u16,
        }
    }

    /// The field with this number, in whichever mode.
    pub fn from_number(number: u16) -> Option<Field> {
        let low = (number % 64) as u8;
        let of = |first: u16| Controller::ALL[usize::from((number - first) / 64)];
        Some(match number {
            0..=9 => SCALARS[usize::from(number)],
            16..=27 => {
                let controller = Controller::ALL[usize::from((number - 16) / 4)];
                match number % 4 {
                    0 => Field::Imr(controller),
                    1 => Field::Frc(controller),
                    2 => Field::Lines(controller),
                    _ => Field::Iconfig(controller),
                }
            }
            64..=127 => Field::Busy(Channel::new(low)),
            128..=191 => Field::Majors(Channel::new(low)),
            192..=255 => Field::Pending(Channel::new(low)),
            256..=447 => Field::SourceLevel(of(256), Source::new(low)),
            576..=767 => Field::Taken(of(576), Source::new(low)),
            768..=831 => Field::Priority(Channel::new(low)),
            _ => return None,
        })
    }

    /// Whether a device in this mode has the field.
    pub const fn is_of(self, mode: Mode) -> bool {
        matches!(mode, Mode::Chip) || !matches!(self, Field::Priority(_))
    }

    /// The field's width in bits, and none where the mode lacks the field.
    pub const fn bits_in(self, mode: Mode) -> u32 {
        if self.is_of(mode) {
            self.bits()
        } else {
            0
        }
    }

    /// The field's width in bits, in a mode that has it.
    pub const fn bits(self) -> u32 {
        match self {
            Field::Cr | Field::Pending(_) => 32,
            Field::Iconfig(_) => 16,
            Field::Level | Field::SourceLevel(..) => 8,
            Field::Priority(_) => 6,
            _ => 64,
        }
    }

    /// Whether a value fits into the field, in a mode that has it.
    pub const fn fits(self, value: u64) -> bool {
        self.bits() == 64 || value >> self.bits() == 0
    }
}

impl fmt::Display for Field {
    fn fmt(&self, to: &mut fmt::Formatter<'_>) -> fmt::Result {
        let name = match self {
            Field::Cr => "CR",
            Field::Erq => "ERQ",
            Field::Eei => "EEI",
            Field::Int => "INT",
            Field::Err => "ERR",
            Field::Kick => "KICK",
            Field::Deferred => "DEFERRED",
            Field::Deadline => "deadline",
            Field::Level => "level",
            Field::Standing => "standing requests",
            Field::Imr(c) => return write!(to, "IMR of controller {}", c.number()),
            Field::Frc(c) => return write!(to, "FRC of controller {}", c.number()),
            Field::Lines(c) => return write!(to, "lines of controller {}", c.number()),
            Field::Iconfig(c) => return write!(to, "ICONFIG of controller {}", c.number()),
            Field::Busy(channel) => return write!(to, "busy time of {channel}"),
            Field::Majors(channel) => return write!(to, "majors of {channel}"),
            Field::Pending(channel) => return write!(to, "pending of {channel}"),
            Field::SourceLevel(c, s) => {
                return write!(to, "level of controller {} source {}", c.number(), s.number())
            }
            Field::Taken(c, s) => {
                return write!(to, "taken of controller {} source {}", c.number(), s.number())
            }
            Field::Priority(channel) => return write!(to, "priority of {channel}"),
        };
        to.write_str(name)
    }
}

#[cfg(test)]
mod tests {
    use super::Field;
    use crate::settings::Mode;

    #[test]
    fn numbers_go_both_ways() {
        let named = (0..=u16::MAX).filter_map(|number| {
            let field = Field::from_number(number)?;
            assert_eq!(field.number(), number);
            Some(field)
        });
        let named: Vec<Field> = named.collect();
        assert_eq!(named.len(), 10 + 12 + 3 * 64 + 3 * 64 + 3 * 64 + 64);
        let old = named.iter().filter(|field| field.is_of(Mode::Old)).count();
        assert_eq!(old, named.len() - 64, "the priorities are of the chip's mode alone");
        assert!(named.iter().all(|field| field.is_of(Mode::Chip)));
    }
}
