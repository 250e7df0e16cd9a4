//! The device: a struct in a box, which the entries work on in place.

use crate::channel::{Channel, Priority};
use crate::descriptor::{Tcd, TCD};
use crate::ffi;
use crate::field::Field;
use crate::raw::RawDevice;
use crate::settings::{Mode, Settings};
use std::fmt;

/// The length of a device image in bytes.
pub const IMAGE: usize = 8720;

/// A whole device: descriptors, registers, controllers.
///
/// A value of its own: copy it, compare it, set it up before a
/// [`crate::Bench`] begins with it. Two devices are equal if no call could tell
/// them apart.
///
/// ```
/// use kounpheray::{Channel, Device, Field, Tcd};
/// let mut device = Device::fresh();
/// assert_eq!(device.get(Field::Deadline), u64::MAX);
/// let channel = Channel::new(3);
/// device.set_descriptor(channel, &Tcd { citer: 2, ..Tcd::default() });
/// device.set(Field::Erq, channel.bit()).unwrap();
/// assert_eq!(device.descriptor(channel).citer, 2);
///
/// // Saved, and loaded again.
/// let image = device.image();
/// assert_eq!(Device::from_image(&image), Some(device));
/// ```
#[derive(Clone)]
pub struct Device {
    pub(crate) raw: Box<RawDevice>,
}

/// Where each field lies, to be read or put there.
macro_rules! at_place {
    ($raw:ident, $field:expr, $doing:ident) => {
        match $field {
            Field::Cr => $doing!($raw.scalars.cr),
            Field::Erq => $doing!($raw.scalars.erq),
            Field::Eei => $doing!($raw.scalars.eei),
            Field::Int => $doing!($raw.scalars.int),
            Field::Err => $doing!($raw.scalars.err),
            Field::Kick => $doing!($raw.scalars.kick),
            Field::Deferred => $doing!($raw.scalars.deferred),
            Field::Deadline => $doing!($raw.scalars.deadline),
            Field::Level => $doing!($raw.scalars.level),
            Field::Standing => $doing!($raw.scalars.standing),
            Field::Imr(c) => $doing!($raw.controllers[c.index()].masks),
            Field::Frc(c) => $doing!($raw.controllers[c.index()].forced),
            Field::Lines(c) => $doing!($raw.controllers[c.index()].lines),
            Field::Iconfig(c) => $doing!($raw.controllers[c.index()].config),
            Field::Busy(channel) => $doing!($raw.busy[channel.index()]),
            Field::Majors(channel) => $doing!($raw.majors[channel.index()]),
            Field::Pending(channel) => $doing!($raw.pending[channel.index()]),
            Field::SourceLevel(c, s) => $doing!($raw.controllers[c.index()].levels[s.index()]),
            Field::Taken(c, s) => $doing!($raw.taken[64 * c.index() + s.index()]),
            Field::Priority(channel) => $doing!($raw.priorities[channel.index()]),
        }
    };
}

/// A value that is wider than its field.
#[derive(Clone, Copy, Debug, PartialEq, Eq)]
pub struct TooWide {
    /// The field.
    pub field: Field,
    /// How many bits it has in the device's mode: none where the mode lacks it.
    pub bits: u32,
}

impl fmt::Display for TooWide {
    fn fmt(&self, to: &mut fmt::Formatter<'_>) -> fmt::Result {
        match self.bits {
            0 => write!(to, "there is no {} in the old mode", self.field),
            bits => write!(to, "{} has {bits} bits", self.field),
        }
    }
}

impl std::error::Error for TooWide {}

impl Device {
    /// A fresh device in the old mode: zero in every field, except masks (all
    /// ones) and deadline (2^64 - 1).
    pub fn fresh() -> Device {
        Device::builder().build()
    }

    /// A fresh device in the old mode that ignores the controllers' masks.
    pub fn ignoring_masks() -> Device {
        Device::builder().ignore_masks(true).build()
    }

    /// Builds a device with chosen settings, from those of [`Device::fresh`].
    pub fn builder() -> Settings {
        Settings::default()
    }

    pub(crate) fn with(settings: Settings) -> Device {
        let mut device = Device::zero();
        let Settings { mode, ignore_masks } = settings;
        let answer = ffi::fresh(&mut device, ignore_masks.into(), mode.number().into());
        assert_eq!(answer.status(), 0, "0 and 1 are never refused");
        device
    }

    fn zero() -> Device {
        Device { raw: Box::new(RawDevice::ZERO) }
    }

    /// A device from its image, if that is one.
    pub fn from_image(image: &[u8]) -> Option<Device> {
        let mut device = Device::zero();
        (ffi::load(&mut device, image).status() == 0).then_some(device)
    }

    /// The device's image, to be kept, sent or compared: docs/ABI.md has its
    /// layout.
    pub fn image(&self) -> Vec<u8> {
        let mut image = vec![0; IMAGE];
        let answer = ffi::save(self, &mut image);
        assert_eq!(answer.status(), 0, "an image of the right length is never refused");
        image
    }

    /// The settings that the device was made with.
    pub fn settings(&self) -> Settings {
        Settings { mode: self.mode(), ignore_masks: self.ignores_masks() }
    }

    /// How a run serves the channels.
    pub fn mode(&self) -> Mode {
        if self.raw.chip {
            Mode::Chip
        } else {
            Mode::Old
        }
    }

    /// Whether the controllers' masks are ignored.
    pub fn ignores_masks(&self) -> bool {
        self.raw.ignore_masks
    }

    /// A channel's priority; none in the old mode.
    pub fn priority(&self, channel: Channel) -> Option<Priority> {
        let field = Field::Priority(channel);
        field.is_of(self.mode()).then(|| Priority::new(self.get(field) as u8))
    }

    /// Puts a channel's priority, as [`Device::set`] does with its field.
    pub fn set_priority(&mut self, channel: Channel, priority: Priority) -> Result<(), TooWide> {
        self.set(Field::Priority(channel), priority.value().into())
    }

    /// A field's value; 0 where the device's mode lacks the field.
    pub fn get(&self, field: Field) -> u64 {
        macro_rules! value {
            ($place:expr) => {
                u64::from($place)
            };
        }
        let raw = &*self.raw;
        let there: u64 = at_place!(raw, field, value);
        // A byte holds a priority, of which the low six bits count.
        there & low_bits(field.bits_in(self.mode()))
    }

    /// Puts a field's value. A field that the device's mode lacks has no bits:
    /// it takes 0 alone.
    pub fn set(&mut self, field: Field, value: u64) -> Result<(), TooWide> {
        let bits = field.bits_in(self.mode());
        if value & low_bits(bits) != value {
            return Err(TooWide { field, bits });
        }
        macro_rules! put {
            ($place:expr) => {
                $place = value as _
            };
        }
        let raw = &mut *self.raw;
        at_place!(raw, field, put);
        Ok(())
    }

    /// The standing requests and the three controllers' lines as they stand:
    /// those that inputs last gave, and among the lines those that the DMA
    /// drives. Given to [`crate::Bench::inputs`] again, they change neither.
    pub fn inputs(&self) -> (u64, [u64; 3]) {
        let raw = &*self.raw;
        (raw.scalars.standing, [0, 1, 2].map(|c| raw.controllers[c].lines))
    }

    /// A channel's descriptor.
    pub fn descriptor(&self, channel: Channel) -> Tcd {
        descriptor_in(&self.raw.table, channel)
    }

    /// Puts a channel's descriptor. START in it sets no KICK bit here, as it
    /// does in a register write.
    pub fn set_descriptor(&mut self, channel: Channel, tcd: &Tcd) {
        let at = TCD * channel.index();
        self.raw.table[at..at + TCD].copy_from_slice(&tcd.to_bytes());
    }

    /// The bytes of the descriptor table.
    pub fn table(&self) -> &[u8] {
        &self.raw.table
    }

    /// The struct with the bits that mean nothing cleared: the upper two of each
    /// priority, and all of them in the old mode.
    fn stands_for(&self) -> RawDevice {
        let mut raw = (*self.raw).clone();
        for channel in Channel::all() {
            raw.priorities[channel.index()] = self.get(Field::Priority(channel)) as u8;
        }
        raw
    }
}

impl PartialEq for Device {
    fn eq(&self, other: &Device) -> bool {
        self.stands_for() == other.stands_for()
    }
}

impl Eq for Device {}

/// What is not 0, and the priorities that are not those of a fresh device.
impl fmt::Debug for Device {
    fn fmt(&self, to: &mut fmt::Formatter<'_>) -> fmt::Result {
        let mut shown = to.debug_struct("Device");
        if self.settings() != Settings::default() {
            shown.field("settings", &self.settings());
        }
        for field in (0..u16::MAX).filter_map(Field::from_number) {
            let left_out = match field {
                Field::Priority(channel) if self.mode() == Mode::Chip => channel.number().into(),
                _ => 0,
            };
            if self.get(field) != left_out {
                shown.field(&field.to_string(), &self.get(field));
            }
        }
        for channel in Channel::all() {
            let tcd = self.descriptor(channel);
            if tcd != Tcd::default() {
                shown.field(&channel.to_string(), &tcd);
            }
        }
        shown.finish()
    }
}

/// A word with so many ones from the bottom.
const fn low_bits(bits: u32) -> u64 {
    match bits {
        0 => 0,
        bits => u64::MAX >> (64 - bits),
    }
}

/// A channel's descriptor in a table.
pub(crate) fn descriptor_in(table: &[u8], channel: Channel) -> Tcd {
    let at = TCD * channel.index();
    let mut bytes = [0; TCD];
    bytes.copy_from_slice(&table[at..at + TCD]);
    Tcd::from_bytes(&bytes)
}

#[cfg(test)]
mod tests {
    use super::Device;
    use crate::channel::Channel;
    use crate::entries::{self, LentJournal};
    use crate::field::Field;
    use crate::register::{DmaRegister, Register};
    use crate::settings::Mode;

    fn in_mode(mode: Mode) -> Device {
        Device::builder().mode(mode).build()
    }

    fn fields(mode: Mode) -> impl Iterator<Item = Field> {
        (0..=u16::MAX).filter_map(Field::from_number).filter(move |field| field.is_of(mode))
    }

    /// The archive finds each field where this crate puts it: in the image,
    /// which the archive lays down, it stands at its number.
    #[test]
    fn every_field_lies_where_the_archive_has_it() {
        for mode in Mode::ALL {
            let mut device = Device::builder().mode(mode).ignore_masks(true).build();
            for (n, field) in fields(mode).enumerate() {
                let value = (n as u64 + 1).wrapping_mul(0x9E37_79B9_7F4A_7C15);
                device.set(field, value >> (64 - field.bits())).expect("as many bits as it has");
            }
            device.raw.table.iter_mut().enumerate().for_each(|(n, byte)| *byte = (n * 7 / 3) as u8);
            let image = device.image();
            assert_eq!(image[..2048], device.raw.table);
            assert_eq!(image[2048..2050], [1, mode.number()]);
            for field in fields(mode) {
                let at = 2064 + 8 * usize::from(field.number());
                assert_eq!(image[at..at + 8], device.get(field).to_be_bytes(), "{field}");
            }
            assert_eq!(Device::from_image(&image), Some(device));
        }
    }

    /// 255 for every other number, and the device stays.
    #[test]
    fn no_other_settings() {
        let mut device = in_mode(Mode::Chip);
        for (ignore_masks, mode) in [(2, 0), (0, 2), (2, 1), (1, 2), (u32::MAX, 0), (0, 1 << 31)] {
            assert_eq!(entries::fresh(&mut device, ignore_masks, mode).status(), 255);
            assert_eq!(device, in_mode(Mode::Chip));
        }
        assert_eq!(entries::fresh(&mut device, 1, 0).status(), 0);
        assert_eq!(device, Device::ignoring_masks());
    }

    /// A priority's upper two bits mean nothing, and in the old mode no bit of
    /// it does.
    #[test]
    fn bits_without_a_meaning() {
        let channel = Channel::new(3);
        let (mut plain, mut more) = (in_mode(Mode::Chip), in_mode(Mode::Chip));
        plain.raw.priorities[3] = 41;
        more.raw.priorities[3] = 0xC0 | 41;
        assert_eq!(plain, more);
        assert_eq!(more.get(Field::Priority(channel)), 41);
        assert_eq!(more.image(), plain.image());
        plain.raw.priorities[3] = 40;
        assert_ne!(plain, more);
        let (plain, mut more) = (in_mode(Mode::Old), in_mode(Mode::Old));
        more.raw.priorities[3] = 41;
        assert_eq!(plain, more);
        assert_eq!(more.get(Field::Priority(channel)), 0);
        assert_eq!(more.image(), plain.image());
        assert_ne!(in_mode(Mode::Old), in_mode(Mode::Chip));
    }

    /// A refusal leaves them alone too: the struct is as it was, bit by bit. A
    /// read tells the low six, and so does the record of an accepted write.
    #[test]
    fn bits_without_a_meaning_stay_at_a_refusal() {
        let mut device = in_mode(Mode::Chip);
        device.raw.priorities.fill(0xEA);
        let before = (*device.raw).clone();
        let register = Register::Dma(DmaRegister::Priority(Channel::new(7)));
        let (address, size) = (register.address(), register.size());
        let mut journal = [0; 32];
        for room in [0, 16, 31] {
            let lent = LentJournal { bytes: &mut journal[..room], used: 0 };
            assert_eq!(entries::write(&mut device, address, size, 1, lent).status(), 11);
            assert!(*device.raw == before, "a refusal changed the struct");
        }
        assert_eq!(entries::read(&device, address, size).low(), 0x2A);
        let lent = LentJournal { bytes: &mut journal, used: 0 };
        assert_eq!(entries::write(&mut device, address, size, 0x81, lent).low(), 32);
        assert_eq!(device.get(Field::Priority(Channel::new(7))), 1);
        assert_eq!(journal[..8], [0x4A, 0x52, 2, 8, 0, 0, 3, 7]);
        assert_eq!(journal[8..16], [0, 0, 0, 0, 0, 0, 0, 0x2A]);
    }
}
