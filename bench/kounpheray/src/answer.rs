//! The one number that every entry answers, taken apart.

use crate::refusal::Refusal;

/// An entry's answer.
#[derive(Clone, Copy, Debug, PartialEq, Eq)]
pub struct Answer(pub u64);

/// What an acknowledge found.
#[derive(Clone, Copy, Debug, PartialEq, Eq)]
pub struct Taken {
    /// The interrupt's level, 1 to 7.
    pub level: u8,
    /// Its vector: 64 + 64 x controller + source.
    pub vector: u8,
}

impl Answer {
    /// 0 where the call was accepted, else the number of the refusal.
    pub fn status(self) -> u8 {
        (self.0 >> 56) as u8
    }

    /// The refusal, if there is one.
    pub fn refusal(self) -> Option<Refusal> {
        match self.status() {
            0 => None,
            number => Some(Refusal::from_number(number)),
        }
    }

    /// The low half: the used length after an act or a take-back, the value
    /// after a read, the place where a capture departs or is malformed.
    pub fn low(self) -> u32 {
        self.0 as u32
    }

    /// The interrupt that an acknowledge took, if it found one.
    pub fn taken(self) -> Option<Taken> {
        let taken = Taken { level: (self.0 >> 40) as u8, vector: (self.0 >> 32) as u8 };
        (taken.level != 0).then_some(taken)
    }

    /// Whether a capture that was not refused departs from the rules.
    pub fn departs(self) -> bool {
        (self.0 >> 32) as u8 == 1
    }

    /// The low half of an accepted call, or the refusal.
    pub fn accepted(self) -> Result<u32, Refusal> {
        match self.refusal() {
            None => Ok(self.low()),
            Some(refusal) => Err(refusal),
        }
    }
}
