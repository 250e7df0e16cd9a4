//! Why a call was refused.

use std::error::Error;
use std::fmt;

/// The refusals by name, each with its number and the documents' words: the
/// one place where one is added.
macro_rules! refusals {
    ($($name:ident = $number:literal, $words:literal;)*) => {
        /// A refusal, with the number and the words of the documents. A refused
        /// call has changed neither the window, nor the device, nor the used
        /// journal.
        #[derive(Clone, Copy, Debug, PartialEq, Eq, PartialOrd, Ord, Hash)]
        #[non_exhaustive]
        pub enum Refusal {
            $(
                #[doc = concat!(stringify!($number), ": ", $words, ".")]
                $name,
            )*
            /// A number that this crate has no words for.
            Other(u8),
        }

        impl Refusal {
            /// The refusals that have a name, by number.
            pub const ALL: &'static [Refusal] = &[$(Refusal::$name),*];

            /// The refusal with this number.
            ///
            /// ```
            /// use kounpheray::Refusal;
            /// assert_eq!(Refusal::from_number(9), Refusal::OutsideWindow);
            /// assert_eq!(Refusal::OutsideWindow.number(), 9);
            /// ```
            pub fn from_number(number: u8) -> Refusal {
                match number {
                    $($number => Refusal::$name,)*
                    _ => Refusal::Other(number),
                }
            }

            /// The documents' number; 255 where the image is not a device.
            pub fn number(self) -> u8 {
                match self {
                    $(Refusal::$name => $number,)*
                    Refusal::Other(number) => number,
                }
            }

            /// When it is given.
            pub fn words(self) -> &'static str {
                match self {
                    $(Refusal::$name => $words,)*
                    Refusal::Other(_) => "a refusal that this crate has no words for",
                }
            }
        }
    };
}

refusals! {
    Size = 1, "size is not 1, 2 or 4";
    Address = 2, "address in none of the four blocks";
    NoRegister = 3, "no such register at that offset and size";
    PastEnd = 4, "descriptor access past offset 0x17FF, or controller write in 0x08..0x17 with \
        offset mod 4 plus size above 4";
    Window = 5, "window empty, longer than 2^24 bytes, or base + length above 2^32";
    Journal = 6, "journal longer than 2^28 bytes, or used length no multiple of 16 or above the \
        length";
    Time = 7, "`now` above 2^62 or pace above 1,000,000";
    Channel = 8, "channel above 63";
    OutsideWindow = 9, "a transfer or scatter/gather byte outside the window";
    Staging = 10, "an unequal-size pass reads more bytes than staging has";
    JournalFull = 11, "the next record doesn't fit";
    NothingToTakeBack = 12, "take back with used length 0";
    Damaged = 13, "take back: the last group is damaged";
    PendingCount = 14, "the sum of pending counts would pass 2^32 - 1";
    Malformed = 22, "capture: a malformed or cut record";
    NotADevice = 255, "the image is not a device";
}

impl fmt::Display for Refusal {
    fn fmt(&self, to: &mut fmt::Formatter<'_>) -> fmt::Result {
        write!(to, "refusal {}: {}", self.number(), self.words())
    }
}

impl Error for Refusal {}

#[cfg(test)]
mod tests {
    use super::Refusal;

    #[test]
    fn numbers_go_both_ways() {
        for number in 1..=255 {
            assert_eq!(Refusal::from_number(number).number(), number);
        }
        for refusal in Refusal::ALL {
            assert_eq!(Refusal::from_number(refusal.number()), *refusal);
        }
    }
}
