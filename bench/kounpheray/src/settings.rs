//! What is chosen when a device is made, and no call changes.

use crate::device::Device;

/// How a run serves the channels.
#[derive(Clone, Copy, Debug, Default, PartialEq, Eq, PartialOrd, Ord, Hash)]
pub enum Mode {
    /// As the Rust that was ported does it: the lowest channel with a KICK bit
    /// first, and each for as long as it has work. A software start moves a
    /// whole major loop.
    #[default]
    Old,
    /// As the chip does it: one minor loop a turn, for the channel with the
    /// highest [`crate::Priority`] among those that are started or have an
    /// enabled request, and then it is looked afresh. KICK bits play no part,
    /// but for a service, which runs only where there is one.
    Chip,
}

impl Mode {
    /// Both.
    pub const ALL: [Mode; 2] = [Mode::Old, Mode::Chip];

    /// The number that images and entries have for the mode.
    pub const fn number(self) -> u8 {
        self as u8
    }
}

/// The settings of a device, and what builds one: [`Device::builder`] gives
/// the settings of [`Device::fresh`], the old mode and masks that are obeyed.
///
/// ```
/// use kounpheray::{Channel, Device, Mode, Priority};
/// let mut device = Device::builder().mode(Mode::Chip).build();
/// assert_eq!(device.mode(), Mode::Chip);
/// let voice = Channel::new(5);
/// assert_eq!(device.priority(voice), Some(Priority::new(5)));
/// device.set_priority(voice, Priority::new(40))?;
/// assert_eq!(device.priority(voice), Some(Priority::new(40)));
///
/// // The old mode has none.
/// assert_eq!(Device::fresh().priority(voice), None);
/// assert!(Device::fresh().set_priority(voice, Priority::new(40)).is_err());
///
/// // A fresh device with the settings of another.
/// assert_eq!(device.settings().build().mode(), Mode::Chip);
/// # Ok::<(), kounpheray::TooWide>(())
/// ```
#[derive(Clone, Copy, Debug, Default, PartialEq, Eq, Hash)]
#[must_use]
pub struct Settings {
    /// How a run serves the channels.
    pub mode: Mode,
    /// Whether the controllers ignore their masks.
    pub ignore_masks: bool,
}

impl Settings {
    /// These settings with another mode.
    pub const fn mode(self, mode: Mode) -> Settings {
        Settings { mode, ..self }
    }

    /// These settings with masks that are ignored, or obeyed.
    pub const fn ignore_masks(self, ignore_masks: bool) -> Settings {
        Settings { ignore_masks, ..self }
    }

    /// A fresh device with these settings: zero in every field, except masks
    /// (all ones), deadline (2^64 - 1) and, in the chip's mode, each channel's
    /// priority (its own number).
    pub fn build(self) -> Device {
        Device::with(self)
    }
}
