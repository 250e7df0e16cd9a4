//! Documents 01 and 02 written down once more, as plainly as can be: what each
//! call answers and leaves, in both modes. It knows neither the engine nor its
//! crates; speed is no aim.
//!
//! A call gets what the entries over an image get (docs/ABI.md), answers the
//! number that they answer, and leaves image, window, staging and journal as
//! they do, so that everything can be compared byte by byte.
#![forbid(unsafe_code)]

mod act;
mod back;
pub mod capture;
mod device;
mod interrupts;
mod memory;
mod pass;
mod registers;
mod run;

use act::Act;
use device::{Device, ERQ, KICK, PENDING};
use memory::Window;

/// What a call is lent.
#[derive(Debug)]
pub struct Lent<'a> {
    pub image: &'a mut Vec<u8>,
    pub base: u32,
    pub window: &'a mut Vec<u8>,
    pub staging: &'a mut Vec<u8>,
    pub journal: &'a mut Vec<u8>,
    pub used: u64,
}

/// The number of a refusal.
type Refused = u8;

/// What an accepted call answers.
#[derive(Default)]
struct Accepted {
    level: u8,
    vector: u8,
    low: u32,
}

impl Lent<'_> {
    /// Reads a register.
    pub fn read(&mut self, address: u32, size: u32) -> u64 {
        let Some(device) = Device::from_image(self.image) else { return refused(255, 0) };
        match registers::read(&device, address, size) {
            Ok(value) => accepted(Accepted { low: value, ..Accepted::default() }),
            Err(number) => refused(number, 0),
        }
    }

    /// Writes a register.
    pub fn write(&mut self, address: u32, size: u32, value: u32) -> u64 {
        let early = registers::refusal(address, size);
        self.act(false, early, |act| {
            registers::write(act, address, size, value)?;
            interrupts::work_out(&mut act.device);
            Ok(Accepted::default())
        })
    }

    /// New standing requests and lines.
    pub fn inputs(&mut self, standing: u64, lines: [u64; 3]) -> u64 {
        self.act(false, None, |act| {
            interrupts::put_inputs(&mut act.device, standing, lines);
            act.device.fields[KICK] |= act.device.requesting() & act.device.fields[ERQ];
            interrupts::work_out(&mut act.device);
            Ok(Accepted::default())
        })
    }

    /// More requests pending for a channel.
    pub fn pending(&mut self, channel: u32, count: u32) -> u64 {
        self.act(false, None, |act| {
            if channel > 63 {
                return Err(8);
            }
            let stands = &mut act.device.fields[PENDING + channel as usize];
            if *stands + u64::from(count) > u64::from(u32::MAX) {
                return Err(14);
            }
            *stands += u64::from(count);
            interrupts::work_out(&mut act.device);
            Ok(Accepted::default())
        })
    }

    /// A run.
    pub fn run(&mut self, now: u64, pace: u64) -> u64 {
        self.moves(now, pace, run::run)
    }

    /// A service.
    pub fn service(&mut self, now: u64, pace: u64) -> u64 {
        self.moves(now, pace, run::service)
    }

    fn moves(
        &mut self,
        now: u64,
        pace: u64,
        what: fn(&mut Act, u64, u64) -> Result<(), Refused>,
    ) -> u64 {
        let early = self.bad_window();
        self.act(true, early, |act| {
            if now > 1 << 62 || pace > 1_000_000 {
                return Err(7);
            }
            what(act, now, pace)?;
            interrupts::work_out(&mut act.device);
            Ok(Accepted::default())
        })
    }

    /// An acknowledge.
    pub fn acknowledge(&mut self, ipl: u8) -> u64 {
        self.act(false, None, |act| {
            let (level, vector) = interrupts::acknowledge(&mut act.device, ipl).unwrap_or_default();
            Ok(Accepted { level, vector, low: 0 })
        })
    }

    /// Takes the last standing act back.
    pub fn take_back(&mut self) -> u64 {
        let Some(mut device) = Device::from_image(self.image) else { return refused(255, 0) };
        if let Some(number) = self.bad_window().or_else(|| self.bad_journal()) {
            return refused(number, self.used);
        }
        let used = self.used as usize;
        match back::take_back(&mut device, self.base, self.window, &self.journal[..used]) {
            Err(number) => refused(number, self.used),
            Ok(left) => {
                *self.image = device.image();
                self.journal[left..used].fill(0);
                accepted(Accepted { low: left as u32, ..Accepted::default() })
            }
        }
    }

    /// An act, and whether it is a run or a service: refusals that come before
    /// 6, then 6, then the act itself, which begins with the checks that are its
    /// own. If it is accepted its group stands behind the used journal.
    fn act(
        &mut self,
        moves: bool,
        early: Option<Refused>,
        what: impl FnOnce(&mut Act) -> Result<Accepted, Refused>,
    ) -> u64 {
        let Some(device) = Device::from_image(self.image) else { return refused(255, 0) };
        if let Some(number) = early.or_else(|| self.bad_journal()) {
            return refused(number, self.used);
        }
        let used = self.used as usize;
        let mut window = Window { base: self.base, bytes: self.window.clone() };
        let mut act = Act::new(device, &mut window, self.staging.len());
        act.room = self.journal.len() - used;
        let made = what(&mut act).and_then(|answer| Ok((answer, act.group()?)));
        let cleared = !matches!(made, Err(1..=8 | 14));
        if moves && cleared {
            self.staging.fill(0);
        }
        match made {
            Err(number) => {
                if cleared {
                    self.journal[used..].fill(0);
                }
                refused(number, self.used)
            }
            Ok((answer, group)) => {
                *self.image = act.device.image();
                *self.window = window.bytes;
                let end = used + group.len();
                self.journal[used..end].copy_from_slice(&group);
                accepted(Accepted { low: end as u32, ..answer })
            }
        }
    }

    fn bad_window(&self) -> Option<Refused> {
        let length = self.window.len() as u64;
        let bad = length == 0 || length > 1 << 24 || u64::from(self.base) + length > 1 << 32;
        bad.then_some(5)
    }

    fn bad_journal(&self) -> Option<Refused> {
        let length = self.journal.len() as u64;
        (length > 1 << 28 || self.used % 16 != 0 || self.used > length).then_some(6)
    }
}

fn accepted(answer: Accepted) -> u64 {
    u64::from(answer.level) << 40 | u64::from(answer.vector) << 32 | u64::from(answer.low)
}

fn refused(number: Refused, used: u64) -> u64 {
    u64::from(number) << 56 | used & 0xFFFF_FFFF
}
