//! A device on the bench: with its memory, its staging and its journal.

use crate::answer::{Answer, Taken};
use crate::channel::Channel;
use crate::descriptor::{Tcd, TcdField};
use crate::device::{descriptor_in, Device};
use crate::ffi;
use crate::journal::{Journal, Record, Stored};
use crate::lent::{Lent, LentJournal, Time};
use crate::refusal::Refusal;
use crate::register::Register;

/// What was done to the device. The acts that stand, in order, are what a
/// [`Bench`] can step back over.
#[derive(Clone, Copy, Debug, PartialEq, Eq)]
#[non_exhaustive]
pub enum Act {
    /// A register write.
    Write {
        /// The address written to.
        address: u32,
        /// The size in bytes.
        size: u32,
        /// The value written.
        value: u32,
    },
    /// New standing requests and lines.
    Inputs {
        /// The standing requests.
        standing: u64,
        /// The three controllers' lines.
        lines: [u64; 3],
    },
    /// More requests pending.
    Pending {
        /// The channel they are for.
        channel: Channel,
        /// How many were added.
        count: u32,
    },
    /// A run.
    Run(Time),
    /// A service.
    Service(Time),
    /// An acknowledge.
    Acknowledge {
        /// The level at or below which interrupts are held back.
        ipl: u8,
    },
}

/// Where a byte of the window came from, with all that is known of it.
#[derive(Clone, Copy, Debug, PartialEq, Eq)]
pub struct Origin {
    /// The store and the channel that made it.
    pub stored: Stored,
    /// The act it was part of.
    pub act: Act,
    /// The channel's descriptor as it stood when that pass began.
    pub descriptor: Tcd,
}

/// A device with its window, staging and journal, owned in one place. Each
/// method is one call of the engine; a refused call has changed nothing that
/// the next one could see.
///
/// ```
/// use kounpheray::{csr, Bench, Channel, Register, Size, Tcd, TcdField, Time};
///
/// let mut window = vec![0; 64];
/// window[..4].copy_from_slice(b"tone");
/// let mut bench = Bench::new(0x8000_0000, window);
/// let channel = Channel::new(0);
/// bench.write_descriptor(channel, &Tcd {
///     saddr: 0x8000_0000,
///     attr: Tcd::attr(Size::Four, 0, Size::Four, 0),
///     soff: 4,
///     nbytes: 4,
///     daddr: 0x8000_0020,
///     citer: 1,
///     doff: 4,
///     biter: 1,
///     csr: csr::START,
///     ..Tcd::default()
/// })?;
/// bench.run(Time { now: 0, pace: 0 })?;
/// assert_eq!(bench.bytes(0x8000_0020, 4), Some(&b"tone"[..]));
/// assert_eq!(bench.read((channel, TcdField::Csr))? as u16, csr::DONE);
///
/// // Which channel put that byte there?
/// let origin = bench.origin(0x8000_0022).unwrap();
/// assert_eq!(origin.stored.channel, channel);
/// assert_eq!(origin.descriptor.saddr, 0x8000_0000);
///
/// // To before the run, and forward again.
/// bench.step_back()?;
/// assert_eq!(bench.bytes(0x8000_0020, 4), Some(&[0; 4][..]));
/// bench.run(Time { now: 0, pace: 0 })?;
/// assert_eq!(bench.bytes(0x8000_0020, 4), Some(&b"tone"[..]));
/// # Ok::<(), kounpheray::Refusal>(())
/// ```
#[derive(Clone, Debug)]
pub struct Bench {
    device: Device,
    base: u32,
    window: Vec<u8>,
    staging: Vec<u8>,
    journal: Vec<u8>,
    used: usize,
    acts: Vec<Act>,
}

impl Bench {
    /// The journal's length where none is chosen: 65,536 records.
    pub const JOURNAL: usize = 1 << 20;

    /// The staging's length where none is chosen.
    pub const STAGING: usize = 4096;

    /// A fresh device over a window that begins at `base`.
    pub fn new(base: u32, window: Vec<u8>) -> Bench {
        Bench {
            device: Device::fresh(),
            base,
            window,
            staging: vec![0; Bench::STAGING],
            journal: vec![0; Bench::JOURNAL],
            used: 0,
            acts: Vec::new(),
        }
    }

    /// Begins with this device, and with an empty journal.
    pub fn with_device(mut self, device: Device) -> Bench {
        self.device = device;
        self.used = 0;
        self.acts.clear();
        self
    }

    /// Begins with an empty journal of this many bytes, at most 2^28.
    pub fn with_journal(mut self, bytes: usize) -> Bench {
        self.journal = vec![0; bytes];
        self.used = 0;
        self.acts.clear();
        self
    }

    /// Uses this many bytes of staging for passes whose sizes differ.
    pub fn with_staging(mut self, bytes: usize) -> Bench {
        self.staging = vec![0; bytes];
        self
    }

    /// The device as it is.
    pub fn device(&self) -> &Device {
        &self.device
    }

    /// The address of the window's first byte.
    pub fn base(&self) -> u32 {
        self.base
    }

    /// The window's bytes.
    pub fn window(&self) -> &[u8] {
        &self.window
    }

    /// The window's bytes, to be filled from outside. The journal knows
    /// nothing of such changes.
    pub fn window_mut(&mut self) -> &mut [u8] {
        &mut self.window
    }

    /// A part of the window by its address, if all of it lies there.
    pub fn bytes(&self, address: u32, len: usize) -> Option<&[u8]> {
        let at = address.checked_sub(self.base)? as usize;
        self.window.get(at..at.checked_add(len)?)
    }

    /// How much of the journal is used, in bytes.
    pub fn used(&self) -> usize {
        self.used
    }

    /// The journal's used bytes, to be kept or printed.
    pub fn journal_bytes(&self) -> &[u8] {
        &self.journal[..self.used]
    }

    /// The journal, read.
    ///
    /// # Panics
    /// Never with a journal that the engine wrote, as this one.
    pub fn journal(&self) -> Journal {
        Journal::read(self.journal_bytes()).expect("the engine writes whole groups")
    }

    /// The acts that stand, oldest first: one for each group of the journal.
    pub fn acts(&self) -> &[Act] {
        &self.acts
    }

    /// Reads a register by name.
    pub fn read(&self, register: impl Into<Register>) -> Result<u32, Refusal> {
        let register = register.into();
        self.read_at(register.address(), register.size())
    }

    /// Reads a register as a guest does, by address and size.
    pub fn read_at(&self, address: u32, size: u32) -> Result<u32, Refusal> {
        ffi::read(&self.device, address, size).accepted()
    }

    /// Writes a register by name.
    pub fn write(&mut self, register: impl Into<Register>, value: u32) -> Result<(), Refusal> {
        let register = register.into();
        self.write_at(register.address(), register.size(), value)
    }

    /// Writes a register as a guest does, by address and size.
    pub fn write_at(&mut self, address: u32, size: u32, value: u32) -> Result<(), Refusal> {
        let journal = LentJournal { bytes: &mut self.journal, used: self.used as u64 };
        let answer = ffi::write(&mut self.device, address, size, value, journal);
        self.stands(answer, Act::Write { address, size, value })
    }

    /// Writes a channel's descriptor field by field, as a driver does: eleven
    /// acts, `csr` last, so that START finds the rest in place. Where one is
    /// refused, those before it are taken back.
    pub fn write_descriptor(&mut self, channel: Channel, tcd: &Tcd) -> Result<(), Refusal> {
        self.all_or_none(|bench| {
            TcdField::ALL
                .into_iter()
                .try_for_each(|field| bench.write((channel, field), field.of(tcd)))
        })
    }

    /// Several acts: where one is refused, those before it are taken back.
    fn all_or_none(
        &mut self,
        acts: impl FnOnce(&mut Bench) -> Result<(), Refusal>,
    ) -> Result<(), Refusal> {
        let standing = self.acts.len();
        let made = acts(self);
        if made.is_err() {
            while self.acts.len() > standing {
                self.step_back()?;
            }
        }
        made
    }

    /// A channel's descriptor as it is.
    pub fn descriptor(&self, channel: Channel) -> Tcd {
        self.device.descriptor(channel)
    }

    /// Puts the standing requests and the lines, and sets the KICK bit of every
    /// requesting channel with its ERQ bit set. What is given here takes the
    /// place of all that was given before: lines that are to stay up are given
    /// again. ([`Device::inputs`] says which they are.) Only the lines that the
    /// DMA drives itself stay as they are, whatever is given.
    pub fn inputs(&mut self, standing: u64, lines: [u64; 3]) -> Result<(), Refusal> {
        let journal = LentJournal { bytes: &mut self.journal, used: self.used as u64 };
        let answer = ffi::inputs(&mut self.device, standing, lines, journal);
        self.stands(answer, Act::Inputs { standing, lines })
    }

    /// Adds to the requests that a channel has pending; one is spent for each
    /// pass. Refused with 14 where the sum would pass 2^32 - 1.
    ///
    /// In the old mode this alone gives no channel work: a [`run`](Bench::run)
    /// that follows moves nothing, since only registers and
    /// [`inputs`](Bench::inputs) set a channel's KICK bit. So `inputs` comes in
    /// between; or [`frames_arrived`](Bench::frames_arrived) does both. In the
    /// chip's mode a run looks at the requests themselves, and only a
    /// [`service`](Bench::service) looks for KICK bits first.
    pub fn pending(&mut self, channel: Channel, count: u32) -> Result<(), Refusal> {
        let journal = LentJournal { bytes: &mut self.journal, used: self.used as u64 };
        let number = u32::from(channel.number());
        let answer = ffi::pending(&mut self.device, number, count, journal);
        self.stands(answer, Act::Pending { channel, count })
    }

    /// What a line driver reports: so many frames have come for this channel.
    /// Two acts: so many more requests pending, and the inputs as they were
    /// last given, which let the channel's KICK bit be set. Where the second
    /// is refused, the first is taken back.
    ///
    /// ```
    /// use kounpheray::{Bench, Channel, DmaRegister, Field, Select, Size, Tcd, Time};
    ///
    /// let mut window = vec![0; 64];
    /// window[..8].copy_from_slice(b"ringback");
    /// let mut bench = Bench::new(0x8000_0000, window);
    /// let channel = Channel::new(5);
    /// bench.write_descriptor(channel, &Tcd {
    ///     saddr: 0x8000_0000,
    ///     attr: Tcd::attr(Size::Four, 0, Size::Four, 0),
    ///     soff: 4,
    ///     nbytes: 4, // a frame
    ///     daddr: 0x8000_0020,
    ///     citer: 9,
    ///     doff: 4,
    ///     biter: 9,
    ///     ..Tcd::default()
    /// })?;
    /// bench.write(DmaRegister::SetErq, Select::Channel(channel).value())?;
    ///
    /// // The second frame comes while the first still waits: neither is lost.
    /// bench.frames_arrived(channel, 1)?;
    /// bench.frames_arrived(channel, 1)?;
    /// assert_eq!(bench.device().get(Field::Pending(channel)), 2);
    /// bench.run(Time { now: 0, pace: 0 })?;
    /// assert_eq!(bench.bytes(0x8000_0020, 8), Some(&b"ringback"[..]));
    /// # Ok::<(), kounpheray::Refusal>(())
    /// ```
    pub fn frames_arrived(&mut self, channel: Channel, count: u32) -> Result<(), Refusal> {
        self.all_or_none(|bench| {
            bench.pending(channel, count)?;
            let (standing, lines) = bench.device.inputs();
            bench.inputs(standing, lines)
        })
    }

    /// Runs the channels that have work.
    ///
    /// In the old mode these are the channels with a KICK bit, lowest first,
    /// each for as long as it has work. In the chip's mode each of at most 4,096
    /// turns is one minor loop of the channel that comes first by its priority:
    ///
    /// ```
    /// use kounpheray::{csr, Bench, Channel, Device, DmaRegister, Mode, Tcd, Time};
    ///
    /// let device = Device::builder().mode(Mode::Chip).build();
    /// let mut bench = Bench::new(0x8000_0000, b"ab....".to_vec()).with_device(device);
    /// for (n, channel) in [Channel::new(3), Channel::new(9)].into_iter().enumerate() {
    ///     // Both to the same place, and two minor loops long.
    ///     bench.write_descriptor(channel, &Tcd {
    ///         saddr: 0x8000_0000 + n as u32,
    ///         nbytes: 1,
    ///         daddr: 0x8000_0002,
    ///         citer: 2,
    ///         doff: 1,
    ///         biter: 2,
    ///         csr: csr::START,
    ///         ..Tcd::default()
    ///     })?;
    /// }
    /// // Channel 9 would come first; with this, channel 3 does.
    /// bench.write(DmaRegister::Priority(Channel::new(3)), 60)?;
    /// bench.run(Time { now: 0, pace: 0 })?;
    /// // One loop a start: the second place is as it was.
    /// assert_eq!(bench.window(), b"abb...");
    /// # Ok::<(), kounpheray::Refusal>(())
    /// ```
    pub fn run(&mut self, time: Time) -> Result<(), Refusal> {
        let memory = Lent { base: self.base, window: &mut self.window };
        let journal = LentJournal { bytes: &mut self.journal, used: self.used as u64 };
        let answer = ffi::run(&mut self.device, time, memory, &mut self.staging, journal);
        self.stands(answer, Act::Run(time))
    }

    /// Offers busy and deferred channels again, and runs if a KICK bit is set
    /// then.
    pub fn service(&mut self, time: Time) -> Result<(), Refusal> {
        let memory = Lent { base: self.base, window: &mut self.window };
        let journal = LentJournal { bytes: &mut self.journal, used: self.used as u64 };
        let answer = ffi::service(&mut self.device, time, memory, &mut self.staging, journal);
        self.stands(answer, Act::Service(time))
    }

    /// Takes the highest interrupt above `ipl`, if there is one; level 7 is
    /// never held back. An act even where nothing is found.
    pub fn acknowledge(&mut self, ipl: u8) -> Result<Option<Taken>, Refusal> {
        let journal = LentJournal { bytes: &mut self.journal, used: self.used as u64 };
        let answer = ffi::acknowledge(&mut self.device, ipl, journal);
        self.stands(answer, Act::Acknowledge { ipl })?;
        Ok(answer.taken())
    }

    /// Undoes the last standing act and says which it was.
    pub fn step_back(&mut self) -> Result<Act, Refusal> {
        let memory = Lent { base: self.base, window: &mut self.window };
        let journal = LentJournal { bytes: &mut self.journal, used: self.used as u64 };
        let answer = ffi::take_back(&mut self.device, memory, journal);
        self.used = answer.accepted()? as usize;
        self.acts.pop().ok_or(Refusal::NothingToTakeBack)
    }

    /// Makes an act that was made before once more.
    pub fn make(&mut self, act: Act) -> Result<Option<Taken>, Refusal> {
        match act {
            Act::Write { address, size, value } => self.write_at(address, size, value)?,
            Act::Inputs { standing, lines } => self.inputs(standing, lines)?,
            Act::Pending { channel, count } => self.pending(channel, count)?,
            Act::Run(time) => self.run(time)?,
            Act::Service(time) => self.service(time)?,
            Act::Acknowledge { ipl } => return self.acknowledge(ipl),
        }
        Ok(None)
    }

    /// Which standing act, which channel and which descriptor last stored to
    /// a byte of the window; none where no standing act did.
    pub fn origin(&self, address: u32) -> Option<Origin> {
        let journal = self.journal();
        let stored = journal.last_store(address)?;
        let act = *self.acts.get(stored.act)?;
        let table = self.table_before(&journal, &stored);
        Some(Origin { stored, act, descriptor: descriptor_in(&table, stored.channel) })
    }

    /// The descriptor table as it stood when a store was made: the present
    /// one with every later table store undone, last to first.
    fn table_before(&self, journal: &Journal, stored: &Stored) -> Vec<u8> {
        let mut table = self.device.table().to_vec();
        for group in journal.groups().rev().take_while(|group| group.act >= stored.act) {
            let first = if group.act == stored.act { stored.record } else { 0 };
            for record in group.records()[first..].iter().rev() {
                if let Record::Table(store) = record {
                    store.undo(&mut table);
                }
            }
        }
        table
    }

    /// Keeps the new used length and the act, if it was accepted.
    fn stands(&mut self, answer: Answer, act: Act) -> Result<(), Refusal> {
        self.used = answer.accepted()? as usize;
        self.acts.push(act);
        Ok(())
    }
}
