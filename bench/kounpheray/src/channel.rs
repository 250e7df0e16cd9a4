//! Channels, priorities, controllers and sources: numbers that can't be out of
//! range.

use std::fmt;

/// One of the 64 DMA channels.
#[derive(Clone, Copy, Debug, PartialEq, Eq, PartialOrd, Ord, Hash)]
pub struct Channel(u8);

impl Channel {
    /// The channel whose pace is that of its wire: it stays busy for as long
    /// as the bytes it moved take.
    pub const PACED: Channel = Channel(35);

    /// A channel by its number.
    ///
    /// # Panics
    /// Where the number is above 63; in a constant, when it is compiled.
    ///
    /// ```
    /// use kounpheray::Channel;
    /// const VOICE: Channel = Channel::new(5);
    /// assert_eq!(VOICE.number(), 5);
    /// ```
    pub const fn new(number: u8) -> Channel {
        assert!(number < 64, "there are 64 channels");
        Channel(number)
    }

    /// A channel by its number, if there is such a channel.
    pub const fn checked(number: u8) -> Option<Channel> {
        if number < 64 {
            Some(Channel(number))
        } else {
            None
        }
    }

    /// The channel's number.
    pub const fn number(self) -> u8 {
        self.0
    }

    /// The number as a place in an array.
    pub(crate) const fn index(self) -> usize {
        self.0 as usize
    }

    /// The channel's bit in ERQ, KICK, INT and the like.
    pub const fn bit(self) -> u64 {
        1 << self.0
    }

    /// All channels in rising order.
    pub fn all() -> impl DoubleEndedIterator<Item = Channel> {
        (0..64).map(Channel)
    }
}

impl fmt::Display for Channel {
    fn fmt(&self, to: &mut fmt::Formatter<'_>) -> fmt::Result {
        write!(to, "channel {}", self.0)
    }
}

/// A channel's priority in the chip's mode: 0 to 63. Of the channels that have
/// work the one with the highest is served, the higher number among equals.
#[derive(Clone, Copy, Debug, PartialEq, Eq, PartialOrd, Ord, Hash)]
pub struct Priority(u8);

impl Priority {
    /// A priority by its value.
    ///
    /// # Panics
    /// Where the value is above 63; in a constant, when it is compiled.
    pub const fn new(value: u8) -> Priority {
        assert!(value < 64, "a priority has six bits");
        Priority(value)
    }

    /// A priority by its value, if that has six bits.
    pub const fn checked(value: u8) -> Option<Priority> {
        if value < 64 {
            Some(Priority(value))
        } else {
            None
        }
    }

    /// The priority's value.
    pub const fn value(self) -> u8 {
        self.0
    }
}

/// One of the three interrupt controllers.
#[derive(Clone, Copy, Debug, PartialEq, Eq, PartialOrd, Ord, Hash)]
pub enum Controller {
    /// Controller 0: channels 0 to 15 on its lines 8 to 23.
    Zero,
    /// Controller 1: channels 16 to 55 on its lines 8 to 47.
    One,
    /// Controller 2: channels 56 to 63 together on its line 0.
    Two,
}

impl Controller {
    /// All three.
    pub const ALL: [Controller; 3] = [Controller::Zero, Controller::One, Controller::Two];

    /// The controller's number.
    pub const fn number(self) -> u8 {
        self as u8
    }

    /// The number as a place in an array.
    pub(crate) const fn index(self) -> usize {
        self as usize
    }
}

/// An interrupt source of one controller: 0 to 63.
#[derive(Clone, Copy, Debug, PartialEq, Eq, PartialOrd, Ord, Hash)]
pub struct Source(u8);

impl Source {
    /// A source by its number.
    ///
    /// # Panics
    /// Where the number is above 63.
    pub const fn new(number: u8) -> Source {
        assert!(number < 64, "a controller has 64 sources");
        Source(number)
    }

    /// The source's number.
    pub const fn number(self) -> u8 {
        self.0
    }

    /// The number as a place in an array.
    pub(crate) const fn index(self) -> usize {
        self.0 as usize
    }
}
