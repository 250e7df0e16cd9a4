//! The registers by name: which address and size each has.

use crate::channel::{Channel, Controller, Source};
use crate::descriptor::{TcdField, TCD};

/// The bit of CR that turns minor offsets on.
pub const CR_EMLM: u32 = 0x80;

const DMA: u32 = 0xFC04_4000;
const TABLE: u32 = DMA + 0x1000;

/// A register of the device.
#[derive(Clone, Copy, Debug, PartialEq, Eq, PartialOrd, Ord, Hash)]
pub enum Register {
    /// A register of the DMA.
    Dma(DmaRegister),
    /// A field of a channel's descriptor.
    Descriptor(Channel, TcdField),
    /// A register of an interrupt controller.
    Controller(Controller, ControllerRegister),
}

/// A register of the DMA.
#[derive(Clone, Copy, Debug, PartialEq, Eq, PartialOrd, Ord, Hash)]
#[non_exhaustive]
pub enum DmaRegister {
    /// Control.
    Cr,
    /// Error status; it can be read only, and reads 0.
    Es,
    /// Enabled requests, channels 32 to 63.
    ErqHigh,
    /// Enabled requests, channels 0 to 31.
    ErqLow,
    /// Enabled error interrupts, channels 32 to 63.
    EeiHigh,
    /// Enabled error interrupts, channels 0 to 31.
    EeiLow,
    /// Command: enable requests.
    SetErq,
    /// Command: disable requests.
    ClearErq,
    /// Command: enable error interrupts.
    SetEei,
    /// Command: disable error interrupts.
    ClearEei,
    /// Command: clear interrupts.
    ClearInt,
    /// Command: clear errors.
    ClearErr,
    /// Command: software start.
    Start,
    /// Command: clear DONE.
    ClearDone,
    /// Interrupts, channels 32 to 63; a written 1 clears.
    IntHigh,
    /// Interrupts, channels 0 to 31; a written 1 clears.
    IntLow,
    /// Errors, channels 32 to 63; a written 1 clears.
    ErrHigh,
    /// Errors, channels 0 to 31; a written 1 clears.
    ErrLow,
    /// Requests at the pins, channels 32 to 63; read only, and 0.
    RequestsHigh,
    /// Requests at the pins, channels 0 to 31; read only, and 0.
    RequestsLow,
    /// A channel's priority. In the chip's mode the low six bits of what is
    /// written are kept. In the old mode it can be written only, and nothing
    /// changes.
    Priority(Channel),
}

/// A register of an interrupt controller.
#[derive(Clone, Copy, Debug, PartialEq, Eq, PartialOrd, Ord, Hash)]
pub enum ControllerRegister {
    /// Lines and forced sources 32 to 63; writing changes nothing.
    PendingHigh,
    /// Lines and forced sources 0 to 31; writing changes nothing.
    PendingLow,
    /// Masks of sources 32 to 63.
    ImrHigh,
    /// Masks of sources 0 to 31.
    ImrLow,
    /// Forced sources 32 to 63.
    FrcHigh,
    /// Forced sources 0 to 31.
    FrcLow,
    /// Configuration.
    Iconfig,
    /// Command: mask one source or all.
    Mask,
    /// Command: unmask one source or all.
    Unmask,
    /// A source's level byte.
    Level(Source),
}

/// What a command byte selects.
///
/// ```
/// use kounpheray::{Channel, Select};
/// assert_eq!(Select::Channel(Channel::new(5)).value(), 5);
/// assert_eq!(Select::All.value(), 0x40);
/// ```
#[derive(Clone, Copy, Debug, PartialEq, Eq, Hash)]
pub enum Select {
    /// One channel.
    Channel(Channel),
    /// One source of a controller.
    Source(Source),
    /// Every channel, or every source.
    All,
}

impl Select {
    /// The command byte.
    pub const fn value(self) -> u32 {
        match self {
            Select::Channel(channel) => channel.number() as u32,
            Select::Source(source) => source.number() as u32,
            Select::All => 0x40,
        }
    }
}

impl Register {
    /// The register's address.
    pub const fn address(self) -> u32 {
        match self {
            Register::Dma(register) => DMA + register.offset(),
            Register::Descriptor(channel, field) => {
                TABLE + TCD as u32 * channel.number() as u32 + field.offset() as u32
            }
            Register::Controller(controller, register) => {
                0xFC04_8000 + 0x4000 * controller.number() as u32 + register.offset()
            }
        }
    }

    /// The register's size in bytes: 1, 2 or 4.
    pub const fn size(self) -> u32 {
        match self {
            Register::Dma(register) => register.size(),
            Register::Descriptor(_, field) => field.width() as u32,
            Register::Controller(_, register) => register.size(),
        }
    }
}

impl DmaRegister {
    const fn offset(self) -> u32 {
        match self {
            DmaRegister::Cr => 0x00,
            DmaRegister::Es => 0x04,
            DmaRegister::ErqHigh => 0x08,
            DmaRegister::ErqLow => 0x0C,
            DmaRegister::EeiHigh => 0x10,
            DmaRegister::EeiLow => 0x14,
            DmaRegister::SetErq => 0x18,
            DmaRegister::ClearErq => 0x19,
            DmaRegister::SetEei => 0x1A,
            DmaRegister::ClearEei => 0x1B,
            DmaRegister::ClearInt => 0x1C,
            DmaRegister::ClearErr => 0x1D,
            DmaRegister::Start => 0x1E,
            DmaRegister::ClearDone => 0x1F,
            DmaRegister::IntHigh => 0x20,
            DmaRegister::IntLow => 0x24,
            DmaRegister::ErrHigh => 0x28,
            DmaRegister::ErrLow => 0x2C,
            DmaRegister::RequestsHigh => 0x30,
            DmaRegister::RequestsLow => 0x34,
            DmaRegister::Priority(channel) => 0x100 + channel.number() as u32,
        }
    }

    const fn size(self) -> u32 {
        match self {
            DmaRegister::SetErq
            | DmaRegister::ClearErq
            | DmaRegister::SetEei
            | DmaRegister::ClearEei
            | DmaRegister::ClearInt
            | DmaRegister::ClearErr
            | DmaRegister::Start
            | DmaRegister::ClearDone
            | DmaRegister::Priority(_) => 1,
            _ => 4,
        }
    }
}

impl ControllerRegister {
    const fn offset(self) -> u32 {
        match self {
            ControllerRegister::PendingHigh => 0x00,
            ControllerRegister::PendingLow => 0x04,
            ControllerRegister::ImrHigh => 0x08,
            ControllerRegister::ImrLow => 0x0C,
            ControllerRegister::FrcHigh => 0x10,
            ControllerRegister::FrcLow => 0x14,
            ControllerRegister::Iconfig => 0x18,
            ControllerRegister::Mask => 0x1C,
            ControllerRegister::Unmask => 0x1D,
            ControllerRegister::Level(source) => 0x40 + source.number() as u32,
        }
    }

    const fn size(self) -> u32 {
        match self {
            ControllerRegister::Iconfig => 2,
            ControllerRegister::Mask
            | ControllerRegister::Unmask
            | ControllerRegister::Level(_) => 1,
            _ => 4,
        }
    }
}

impl From<DmaRegister> for Register {
    fn from(register: DmaRegister) -> Register {
        Register::Dma(register)
    }
}

impl From<(Controller, ControllerRegister)> for Register {
    fn from((controller, register): (Controller, ControllerRegister)) -> Register {
        Register::Controller(controller, register)
    }
}

impl From<(Channel, TcdField)> for Register {
    fn from((channel, field): (Channel, TcdField)) -> Register {
        Register::Descriptor(channel, field)
    }
}
