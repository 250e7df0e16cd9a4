//! One case after another, each from a device made for it.

use crate::call::Call;
use crate::compare::Beside;
use crate::world::World;
use kounpheray::{Channel, Device, Field, Mode, Tcd, Time};
use oracle::Oracle;

/// Where the window begins if a case does not say.
pub const BASE: u32 = 0x8000_0000;

/// The length of the window if a case does not say.
pub const LEN: usize = 512;

pub const AT_ONCE: Time = Time { now: 0, pace: 0 };

/// The engine beside the Rust, for many short cases.
pub struct Lab {
    pub pair: Beside,
}

impl Default for Lab {
    fn default() -> Lab {
        Lab::new()
    }
}

impl Lab {
    pub fn new() -> Lab {
        let world = World {
            image: Device::fresh().image(),
            base: BASE,
            window: memory(LEN),
            staging: vec![0xA5; 128],
            journal: vec![0xA5; 16 * 256],
            used: 0,
        };
        Lab { pair: Beside::new(world).expect("a fresh device can be compared") }
    }

    /// Puts a device and the usual window in place.
    pub fn begin(&mut self, device: &Device) {
        self.begin_in(device, BASE, &memory(LEN));
    }

    pub fn begin_in(&mut self, device: &Device, base: u32, window: &[u8]) {
        self.pair
            .again(&device.image(), base, window)
            .expect("the case lies in the claimed domain");
    }

    /// Makes a call on both sides.
    ///
    /// # Panics
    /// At a difference, with the case.
    pub fn call(&mut self, call: Call) {
        let start = self.pair.world.image.clone();
        if let Err(told) = self.pair.call(call) {
            let device = Device::from_image(&start);
            let base = self.pair.world.base;
            panic!("the engine and the Rust differ\n{told}\nbase {base:08x}\n{device:#x?}");
        }
    }

    /// A run of a device over the usual window.
    pub fn run(&mut self, device: &Device) {
        self.begin(device);
        self.call(Call::Run(AT_ONCE));
    }
}

/// A window in which no byte has the neighbours of another.
pub fn memory(len: usize) -> Vec<u8> {
    (0..len).map(|at| (at * 167 + at / 256 * 31 + 13) as u8).collect()
}

/// A fresh device in a mode.
pub fn fresh(mode: Mode) -> Device {
    Device::builder().mode(mode).build()
}

/// A device in the old mode in which one channel has one request pending.
pub fn one_request(channel: Channel, tcd: &Tcd) -> Device {
    one_request_in(Mode::Old, channel, tcd)
}

/// The same in either mode.
pub fn one_request_in(mode: Mode, channel: Channel, tcd: &Tcd) -> Device {
    let mut device = fresh(mode);
    device.set_descriptor(channel, tcd);
    put(&mut device, Field::Erq, channel.bit());
    put(&mut device, Field::Kick, channel.bit());
    put(&mut device, Field::Pending(channel), 1);
    device
}

pub fn put(device: &mut Device, field: Field, value: u64) {
    device.set(field, value).expect("the value fits");
}

/// The device with lines and level worked out, as most cases need it at entry.
pub fn settled(device: &Device) -> Device {
    let mut image = device.image();
    Oracle::settle(&mut image);
    Device::from_image(&image).expect("it was a device before")
}
