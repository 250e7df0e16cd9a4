//! The demo's device: two channels, a ring, a level for their interrupts.

use kounpheray::{
    csr, Bench, Channel, Controller, ControllerRegister, Count, Device, DmaRegister, Mode, Refusal,
    Select, Size, Source, Tcd, Time,
};

/// Moves the voice's blocks into the ring.
pub const VOICE: Channel = Channel::new(5);

/// Moves a fax header to a place that was never checked.
pub const FAX: Channel = Channel::new(6);

/// Bytes in a block: 20 ms at 8,000 samples a second.
pub const BLOCK: usize = 160;

/// Blocks in the ring.
pub const RING_BLOCKS: usize = 4;

/// Blocks of the call.
pub const BLOCKS: usize = 7;

/// The block that waits for the next one.
pub const LATE: usize = 2;

/// The block with which the fault comes.
pub const FAULTY: usize = 5;

const BASE: u32 = 0x8000_0000;

/// Where the line card puts block 0; the next ones lie behind it.
pub const LINE: u32 = BASE;

/// Where the fax header lies.
pub const HEADER: u32 = BASE + 0x700;

/// Where the ring begins.
pub const RING: u32 = BASE + 0x800;

/// A fresh device with the registers written as a driver would.
pub fn bench(mode: Mode) -> Result<Bench, Refusal> {
    let device = Device::builder().mode(mode).build();
    let mut bench = Bench::new(BASE, vec![0xFF; 0x1000]).with_device(device);
    let ring = (RING_BLOCKS * BLOCK) as u32;
    let loops = Count::Plain(RING_BLOCKS as u16).raw();
    let voice = Tcd {
        saddr: LINE,
        attr: Tcd::attr(Size::Four, 0, Size::Four, 0),
        soff: 4,
        nbytes: BLOCK as u32,
        daddr: RING,
        citer: loops,
        doff: 4,
        // At the ring's end, back to its beginning.
        dlast: ring.wrapping_neg(),
        biter: loops,
        csr: csr::INTMAJOR,
        ..Tcd::default()
    };
    let fax = Tcd {
        saddr: HEADER,
        attr: Tcd::attr(Size::One, 0, Size::One, 0),
        soff: 1,
        nbytes: 8,
        daddr: RING + BLOCK as u32 + 40,
        citer: 1,
        doff: 1,
        biter: 1,
        csr: csr::DREQ,
        ..Tcd::default()
    };
    bench.write_descriptor(VOICE, &voice)?;
    bench.write_descriptor(FAX, &fax)?;
    for channel in [VOICE, FAX] {
        bench.write(DmaRegister::SetErq, Select::Channel(channel).value())?;
    }
    let source = Source::new(8 + VOICE.number());
    bench.write((Controller::Zero, ControllerRegister::Level(source)), 4)?;
    bench.write((Controller::Zero, ControllerRegister::Unmask), Select::Source(source).value())?;
    Ok(bench)
}

/// The time of a block in milliseconds.
pub fn time(block: usize) -> Time {
    Time { now: 20 * (block as u64 + 1), pace: 0 }
}

/// What an interrupt handler does when a round of the ring is over.
pub fn clear_interrupts(bench: &mut Bench) -> Result<(), Refusal> {
    bench.write(DmaRegister::ClearInt, Select::Channel(VOICE).value())
}
