//! The device of the Rust, made from an image and read back into one.

use crate::bus::{Bus, Left};
use crate::image::{self, TABLE};
use crate::io::Io;
use crate::{lines, requests, Outside, Ran, APART, IMAGE};
use std::panic::{catch_unwind, resume_unwind, AssertUnwindSafe};

/// The Rust's device and its window.
pub struct Oracle {
    bus: Bus,
    /// The setting as it stood in the image.
    ignore_masks: u8,
}

impl Oracle {
    /// A device from its image, or the reason why it can't be compared.
    pub fn load(image: &[u8], base: u32, window: &[u8]) -> Result<Oracle, Outside> {
        let mut oracle = Oracle { bus: Bus::new(), ignore_masks: 0 };
        oracle.reload(image, base, window)?;
        Ok(oracle)
    }

    /// Puts another device and window in the place of the ones held.
    pub fn reload(&mut self, image: &[u8], base: u32, window: &[u8]) -> Result<(), Outside> {
        self.bus.base = base;
        self.bus.window.clear();
        self.bus.window.extend_from_slice(window);
        self.load_device(image);
        load_requests(&mut self.bus.io, image)?;
        worked_out(&mut self.bus.io)
    }

    /// Makes lines and level of an image what the Rust works out.
    pub fn settle(image: &mut [u8]) {
        let mut oracle = Oracle { bus: Bus::new(), ignore_masks: 0 };
        oracle.load_device(image);
        oracle.bus.io.update_irq();
        store_controllers(&oracle.bus.io, image);
    }

    fn load_device(&mut self, image: &[u8]) {
        assert_eq!(image.len(), IMAGE, "an image has {IMAGE} bytes");
        self.ignore_masks = image[image::IGNORE_MASKS];
        let io = &mut self.bus.io;
        io.ignore_masks = self.ignore_masks != 0;
        io.trace_intc = false;
        load_dma(io, image);
        load_controllers(io, image);
    }

    /// A register's value, or none where there is no such register.
    pub fn read(&mut self, address: u32, size: u32) -> Option<u32> {
        self.bus.io.read(address, size, 0, 0, &mut [])
    }

    /// A register write; false where there is no such register.
    pub fn write(&mut self, address: u32, size: u32, value: u32) -> bool {
        self.bus.io.write(address, size, value, 0, &mut [])
    }

    /// Document 01's inputs, which the Rust has no function for: new standing
    /// requests and lines, then KICK, then lines and level worked out anew.
    pub fn inputs(&mut self, standing: u64, given: [u64; 3]) -> Result<(), Outside> {
        let io = &mut self.bus.io;
        let mut new = given;
        for (n, line) in new.iter_mut().enumerate() {
            let owned = lines::DMA_OWNED[n];
            *line = (*line & !owned) | (io.intc[n].lines & owned);
        }
        lines::hold(io, new);
        requests::set_standing(io, standing);
        io.edma.kick |= io.dma_requesting() & io.edma.erq;
        io.update_irq();
        requests_in_domain(io)
    }

    /// Adds to the count of one channel, if one of the four can be had for it.
    ///
    /// # Panics
    /// If the sum passes 2^32 - 1, which the Rust has no refusal for.
    pub fn pending(&mut self, channel: usize, count: u32) -> Result<(), Outside> {
        let io = &mut self.bus.io;
        let counts = requests::counts(io);
        let held = (0..4).find(|&n| counts[n] > 0 && requests::channel(io, n) == channel);
        let free = (0..4).find(|&n| counts[n] == 0);
        match held.or(free) {
            Some(n) => {
                let sum = counts[n].checked_add(count).expect("a sum that is not refused");
                requests::set_count(io, n, channel, sum);
            }
            None if count == 0 => {}
            None => return Err(Outside::TooManyCounted),
        }
        io.update_irq();
        requests_in_domain(io)
    }

    /// Runs every channel with work waiting.
    pub fn run(&mut self, now: u64, pace: u64) -> Ran {
        self.call(now, pace, Bus::run_dma)
    }

    /// Offers busy and deferred channels again, then runs.
    pub fn service(&mut self, now: u64, pace: u64) -> Ran {
        self.call(now, pace, Bus::dma_service)
    }

    /// Makes many runs, each with the kicked channels' descriptors and KICK
    /// as they are now: for measurements.
    pub fn run_many(&mut self, runs: u64, now: u64, pace: u64) {
        let kick = self.bus.io.edma.kick;
        let table = self.bus.io.edma.tcd.clone();
        self.bus.io.now = now;
        self.bus.io.uart_byte_instr = pace;
        for _ in 0..runs {
            self.bus.begin_call();
            let dma = &mut self.bus.io.edma;
            dma.kick = kick;
            for channel in (0..64).filter(|channel| kick >> channel & 1 == 1) {
                let place = 32 * channel..32 * channel + 32;
                dma.tcd[place.clone()].copy_from_slice(&table[place]);
            }
            self.bus.run_dma();
        }
    }

    fn call(&mut self, now: u64, pace: u64, what: fn(&mut Bus)) -> Ran {
        let bus = &mut self.bus;
        bus.io.now = now;
        bus.io.uart_byte_instr = pace;
        bus.begin_call();
        // A call that is left half-way leaves a device that nobody looks at
        // before the next `reload`.
        match catch_unwind(AssertUnwindSafe(|| what(bus))) {
            Ok(()) => Ran::Whole,
            Err(payload) => match payload.downcast_ref::<Left>() {
                Some(Left::Outside) => Ran::LeftWindow,
                Some(Left::TooLong) => Ran::GivenUp,
                None => resume_unwind(payload),
            },
        }
    }

    /// The interrupt that is taken: its level and vector.
    pub fn acknowledge(&mut self, ipl: u8) -> Option<(u8, u8)> {
        self.bus.io.ack_irq(ipl).map(|(vector, level)| (level, vector))
    }

    /// Writes the device into an image.
    pub fn store(&self, image: &mut [u8]) {
        assert_eq!(image.len(), IMAGE, "an image has {IMAGE} bytes");
        image.fill(0);
        image[image::IGNORE_MASKS] = self.ignore_masks;
        store_dma(&self.bus.io, image);
        store_controllers(&self.bus.io, image);
    }

    /// Waits for this many memory accesses in each run or service to come.
    #[cfg(feature = "watch")]
    pub fn allow(&mut self, accesses: u64) {
        self.bus.allowed = accesses;
    }

    /// The stores that the last run or service made into the window, in order.
    #[cfg(feature = "watch")]
    pub fn stores(&self) -> &[crate::Store] {
        &self.bus.stores
    }

    /// The memory accesses that the last run or service made, in order.
    #[cfg(feature = "watch")]
    pub fn accesses(&self) -> &[crate::Access] {
        &self.bus.accesses
    }

    /// The address of the window's first byte.
    pub fn base(&self) -> u32 {
        self.bus.base
    }

    /// The window's bytes.
    pub fn window(&self) -> &[u8] {
        &self.bus.window
    }
}

fn load_dma(io: &mut Io, from: &[u8]) {
    let dma = &mut io.edma;
    dma.tcd.clear();
    dma.tcd.extend_from_slice(&from[..TABLE]);
    dma.cr = image::field(from, image::CR) as u32;
    dma.erq = image::field(from, image::ERQ);
    dma.eei = image::field(from, image::EEI);
    dma.int = image::field(from, image::INT);
    dma.err = image::field(from, image::ERR);
    dma.kick = image::field(from, image::KICK);
    dma.deferred = image::field(from, image::DEFERRED);
    for channel in 0..64 {
        dma.busy_until[channel] = image::field(from, image::BUSY + channel);
        dma.majors[channel] = image::field(from, image::MAJORS + channel);
    }
    io.deadline = image::field(from, image::DEADLINE);
}

fn load_controllers(io: &mut Io, from: &[u8]) {
    let mut held = [0; 3];
    for (n, controller) in io.intc.iter_mut().enumerate() {
        let first = image::CONTROLLER + 4 * n;
        controller.imr = image::field(from, first);
        controller.frc = image::field(from, first + 1);
        held[n] = image::field(from, first + 2);
        controller.iconfig = image::field(from, first + 3) as u16;
        for source in 0..64 {
            controller.icr[source] =
                image::field(from, image::SOURCE_LEVEL + 64 * n + source) as u8;
        }
    }
    lines::hold(io, held);
    io.irq_level = image::field(from, image::LEVEL) as u8;
    for vector in 64..256 {
        io.irq_taken[vector] = image::field(from, image::TAKEN + vector);
    }
}

fn load_requests(io: &mut Io, from: &[u8]) -> Result<(), Outside> {
    requests::set_standing(io, image::field(from, image::STANDING));
    for n in 0..4 {
        requests::set_count(io, n, 0, 0);
    }
    let mut next = 0;
    for channel in 0..64 {
        let count = image::field(from, image::PENDING + channel) as u32;
        if count == 0 {
            continue;
        }
        if next == 4 {
            return Err(Outside::TooManyCounted);
        }
        requests::set_count(io, next, channel, count);
        next += 1;
    }
    requests_in_domain(io)
}

fn requests_in_domain(io: &Io) -> Result<(), Outside> {
    let counts = requests::counts(io);
    let counted = (0..4)
        .filter(|&n| counts[n] > 0)
        .fold(0u64, |mask, n| mask | 1 << requests::channel(io, n));
    if counted & APART != 0 {
        Err(Outside::CountedApart)
    } else if counted & requests::standing(io) != 0 {
        Err(Outside::CountedAndStanding)
    } else {
        Ok(())
    }
}

/// Whether level and lines are what the Rust works out. The lines of other
/// devices are held, so only DMA-owned ones can differ.
fn worked_out(io: &mut Io) -> Result<(), Outside> {
    let state = |io: &Io| (io.irq_level, [0, 1, 2].map(|n| io.intc[n].lines));
    let before = state(io);
    io.update_irq();
    if state(io) == before {
        Ok(())
    } else {
        Err(Outside::NotWorkedOut)
    }
}

fn store_dma(io: &Io, to: &mut [u8]) {
    let dma = &io.edma;
    to[..TABLE].copy_from_slice(&dma.tcd);
    image::set_field(to, image::CR, u64::from(dma.cr));
    image::set_field(to, image::ERQ, dma.erq);
    image::set_field(to, image::EEI, dma.eei);
    image::set_field(to, image::INT, dma.int);
    image::set_field(to, image::ERR, dma.err);
    image::set_field(to, image::KICK, dma.kick);
    image::set_field(to, image::DEFERRED, dma.deferred);
    image::set_field(to, image::DEADLINE, io.deadline);
    image::set_field(to, image::STANDING, requests::standing(io));
    for channel in 0..64 {
        image::set_field(to, image::BUSY + channel, dma.busy_until[channel]);
        image::set_field(to, image::MAJORS + channel, dma.majors[channel]);
    }
    for (n, count) in requests::counts(io).into_iter().enumerate() {
        if count > 0 {
            image::set_field(to, image::PENDING + requests::channel(io, n), u64::from(count));
        }
    }
}

fn store_controllers(io: &Io, to: &mut [u8]) {
    image::set_field(to, image::LEVEL, u64::from(io.irq_level));
    for (n, controller) in io.intc.iter().enumerate() {
        let first = image::CONTROLLER + 4 * n;
        image::set_field(to, first, controller.imr);
        image::set_field(to, first + 1, controller.frc);
        image::set_field(to, first + 2, controller.lines);
        image::set_field(to, first + 3, u64::from(controller.iconfig));
        for source in 0..64 {
            let level = u64::from(controller.icr[source]);
            image::set_field(to, image::SOURCE_LEVEL + 64 * n + source, level);
        }
    }
    for vector in 64..256 {
        image::set_field(to, image::TAKEN + vector, io.irq_taken[vector]);
    }
}
