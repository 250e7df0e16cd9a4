//! The calls that are measured: what each does on the engine, through the
//! crate, and on the Rust.

use kounpheray::entries::{self, Answer, Lent, LentJournal};
use kounpheray::{
    csr, Channel, Controller, ControllerRegister, Device, DmaRegister, Field, Mode, Register, Size,
    Source, Tcd, TcdField, Time,
};
use oracle::Oracle;
use std::hint::black_box;

pub const BLOCK: u32 = 160;

const BASE: u32 = 0x8000_0000;
const CHANNEL: Channel = Channel::new(5);
const AT_ONCE: Time = Time { now: 0, pace: 0 };

/// A call to measure.
#[derive(Clone, Copy, Debug)]
pub enum Call {
    Read(Register),
    /// One of two values in turn, so that each write changes something.
    Write(Register, [u32; 2]),
    Inputs,
    Pending,
    Acknowledge,
    /// A run with nothing to do.
    Idle(Mode),
    /// A run that moves a block in these sizes.
    Move(Size, Size),
    /// A run in which so many channels have so many requests each, of four
    /// bytes: so many minor loops in either mode.
    Loops {
        mode: Mode,
        ready: usize,
        each: u64,
    },
    /// A register write, and its take-back.
    TakenBack,
    /// The device saved as an image.
    Save,
    /// And loaded from one.
    Load,
}

/// The calls by their names.
pub fn all() -> Vec<(String, Call)> {
    let cr = Register::Dma(DmaRegister::Cr);
    let erq = Register::Dma(DmaRegister::ErqLow);
    let daddr = Register::Descriptor(CHANNEL, TcdField::Daddr);
    let masks = Register::Controller(Controller::One, ControllerRegister::ImrLow);
    let mut calls = vec![
        ("read CR", Call::Read(cr)),
        ("read descriptor", Call::Read(daddr)),
        ("read controller", Call::Read(masks)),
        ("write ERQ", Call::Write(erq, [0, 1])),
        ("write descriptor", Call::Write(daddr, [BASE, BASE + 4])),
        ("write controller", Call::Write(masks, [!0, !1])),
        ("inputs", Call::Inputs),
        ("pending", Call::Pending),
        ("acknowledge", Call::Acknowledge),
        ("run, idle", Call::Idle(Mode::Old)),
        ("chip, idle", Call::Idle(Mode::Chip)),
    ]
    .into_iter()
    .map(|(name, call)| (name.to_string(), call))
    .collect::<Vec<_>>();
    let (one, two, four) = (Size::One, Size::Two, Size::Four);
    let (sixteen, thirty_two) = (Size::Sixteen, Size::ThirtyTwo);
    for (from, to) in [
        (four, four),
        (one, one),
        (two, two),
        (sixteen, sixteen),
        (thirty_two, thirty_two),
        (four, two),
        (one, four),
    ] {
        calls.push((format!("run, {} to {}", from.bytes(), to.bytes()), Call::Move(from, to)));
    }
    for (name, call) in
        [("write, take back", Call::TakenBack), ("save", Call::Save), ("load", Call::Load)]
    {
        calls.push((name.to_string(), call));
    }
    for (name, mode) in [("old", Mode::Old), ("chip", Mode::Chip)] {
        for (ready, each) in [(1, 64), (1, 128), (8, 8), (8, 16), (63, 1), (63, 2)] {
            let call = Call::Loops { mode, ready, each };
            calls.push((format!("{name}, {ready} x {each}"), call));
        }
    }
    calls
}

/// So many channels that have work, without the one that has a pace of its own.
fn ready_channels(ready: usize) -> impl Iterator<Item = Channel> {
    Channel::all().filter(|channel| *channel != Channel::PACED).take(ready)
}

/// A minor loop of four bytes, from and to places that stay.
fn four_bytes() -> Tcd {
    Tcd {
        soff: 0,
        nbytes: 4,
        citer: 1000,
        doff: 0,
        biter: 1000,
        csr: 0,
        ..descriptor(Size::Four, Size::Four)
    }
}

/// A window in which no two blocks are alike.
fn window() -> Vec<u8> {
    (0..1024u32).map(|at| (at * 167 + at / 256 * 31 + 13) as u8).collect()
}

/// What a move begins with: its descriptor.
fn descriptor(from: Size, to: Size) -> Tcd {
    Tcd {
        saddr: BASE,
        attr: Tcd::attr(from, 0, to, 0),
        soff: from.bytes() as i16,
        nbytes: BLOCK,
        daddr: BASE + 512,
        citer: 1,
        doff: to.bytes() as i16,
        biter: 1,
        csr: csr::START,
        ..Tcd::default()
    }
}

/// A device on which the call has something to do.
fn device(call: Call) -> Device {
    let mode = match call {
        Call::Idle(mode) | Call::Loops { mode, .. } => mode,
        _ => Mode::Old,
    };
    let mut device = Device::builder().mode(mode).build();
    let mut put = |field, value| device.set(field, value).expect("the value fits");
    match call {
        Call::Acknowledge => {
            put(Field::SourceLevel(Controller::One, Source::new(60)), 5);
            put(Field::Frc(Controller::One), 1 << 60);
            put(Field::Imr(Controller::One), !(1 << 60));
            put(Field::Level, 5);
        }
        Call::Move(from, to) => {
            put(Field::Kick, CHANNEL.bit());
            device.set_descriptor(CHANNEL, &descriptor(from, to));
        }
        _ => {}
    }
    device
}

/// One side of the measurement, ready to make the call many times.
pub struct Engine {
    call: Call,
    device: Device,
    window: Vec<u8>,
    staging: Vec<u8>,
    journal: Vec<u8>,
    image: Vec<u8>,
}

impl Engine {
    pub fn new(call: Call) -> Engine {
        let device = device(call);
        Engine {
            call,
            image: device.image(),
            device,
            window: window(),
            staging: vec![0; BLOCK as usize + 32],
            journal: vec![0; 1 << 14],
        }
    }

    /// Makes the call so many times, each with an empty journal.
    pub fn make(&mut self, times: u64) {
        match self.call {
            Call::Read(register) => {
                let (address, size) = (register.address(), register.size());
                for _ in 0..times {
                    accepted(entries::read(black_box(&self.device), address, size));
                }
            }
            Call::Write(register, values) => {
                let (address, size) = (register.address(), register.size());
                for n in 0..times {
                    let value = values[n as usize % 2];
                    let journal = LentJournal { bytes: &mut self.journal, used: 0 };
                    accepted(entries::write(&mut self.device, address, size, value, journal));
                }
            }
            Call::Inputs => {
                for n in 0..times {
                    let journal = LentJournal { bytes: &mut self.journal, used: 0 };
                    accepted(entries::inputs(&mut self.device, n % 2, [0, n % 2, 0], journal));
                }
            }
            Call::Pending => {
                for n in 0..times {
                    let journal = LentJournal { bytes: &mut self.journal, used: 0 };
                    let count = 1 + (n % 2) as u32;
                    accepted(entries::pending(&mut self.device, 5, count, journal));
                }
            }
            Call::Acknowledge => {
                for _ in 0..times {
                    let journal = LentJournal { bytes: &mut self.journal, used: 0 };
                    let answer = accepted(entries::acknowledge(&mut self.device, 0, journal));
                    assert!(answer.taken().is_some(), "nothing was there to take");
                }
            }
            Call::Idle(_) => (0..times).for_each(|_| self.run()),
            Call::Move(from, to) => self.moves(times, &descriptor(from, to)),
            Call::Loops { ready, each, .. } => self.loops(times, ready, each),
            Call::TakenBack => {
                let register = Register::Dma(DmaRegister::ErqLow);
                for _ in 0..times {
                    let journal = LentJournal { bytes: &mut self.journal, used: 0 };
                    let (address, size) = (register.address(), register.size());
                    let made = entries::write(&mut self.device, address, size, 1, journal);
                    let used = u64::from(accepted(made).low());
                    let memory = Lent { base: BASE, window: &mut self.window };
                    let journal = LentJournal { bytes: &mut self.journal, used };
                    accepted(entries::take_back(&mut self.device, memory, journal));
                }
            }
            Call::Save => {
                for _ in 0..times {
                    accepted(entries::save(black_box(&self.device), &mut self.image));
                }
            }
            Call::Load => {
                for _ in 0..times {
                    accepted(entries::load(&mut self.device, black_box(&self.image)));
                }
            }
        }
    }

    fn run(&mut self) {
        let memory = Lent { base: BASE, window: &mut self.window };
        let journal = LentJournal { bytes: &mut self.journal, used: 0 };
        accepted(entries::run(&mut self.device, AT_ONCE, memory, &mut self.staging, journal));
    }

    /// Before each run descriptor and KICK are put back, as on the Rust's side.
    fn moves(&mut self, times: u64, tcd: &Tcd) {
        let before = window();
        assert_ne!(self.window[512..672], before[..160], "the block is there before any run");
        for _ in 0..times {
            self.device.set_descriptor(CHANNEL, tcd);
            self.device.set(Field::Kick, CHANNEL.bit()).expect("KICK has 64 bits");
            self.run();
        }
        assert_eq!(self.window[512..672], before[..160], "a block was not moved");
        assert!(self.staging.iter().all(|&byte| byte == 0), "staging was not cleared");
        self.window = before;
    }

    /// Before each run the channels are given their work anew. That costs the
    /// same for twice as many requests of each, so that it cancels out where
    /// one count is taken from the other.
    fn loops(&mut self, times: u64, ready: usize, each: u64) {
        let tcd = four_bytes();
        let all = ready_channels(ready).fold(0, |mask, channel| mask | channel.bit());
        for _ in 0..times {
            for channel in ready_channels(ready) {
                self.device.set_descriptor(channel, &tcd);
                self.device.set(Field::Pending(channel), each).expect("the count fits");
            }
            for field in [Field::Erq, Field::Kick] {
                self.device.set(field, all).expect("it has 64 bits");
            }
            self.run();
        }
        for channel in ready_channels(ready) {
            let left = u64::from(self.device.descriptor(channel).citer);
            assert_eq!(left, 1000 - each, "a loop for each request");
        }
    }
}

fn accepted(answer: Answer) -> Answer {
    assert_eq!(answer.status(), 0, "a call was refused");
    answer
}

/// The Rust's side.
pub struct Rust {
    call: Call,
    oracle: Oracle,
}

impl Rust {
    /// None where the sources are not there, or where the Rust has no such call.
    pub fn new(call: Call) -> Option<Rust> {
        if let Call::TakenBack
        | Call::Save
        | Call::Load
        | Call::Idle(Mode::Chip)
        | Call::Loops { .. } = call
        {
            return None;
        }
        let oracle = Oracle::load(&device(call).image(), BASE, &window()).ok()?;
        Some(Rust { call, oracle })
    }

    /// Makes the call so many times.
    pub fn make(&mut self, times: u64) {
        let oracle = &mut self.oracle;
        match self.call {
            Call::Read(register) => {
                let (address, size) = (register.address(), register.size());
                for _ in 0..times {
                    black_box(oracle.read(black_box(address), size));
                }
            }
            Call::Write(register, values) => {
                let (address, size) = (register.address(), register.size());
                for n in 0..times {
                    assert!(oracle.write(black_box(address), size, values[n as usize % 2]));
                }
            }
            Call::Inputs => {
                for n in 0..times {
                    oracle.inputs(n % 2, [0, n % 2, 0]).expect("inside the claimed domain");
                }
            }
            Call::Pending => {
                for n in 0..times {
                    oracle.pending(5, 1 + (n % 2) as u32).expect("inside the claimed domain");
                }
            }
            Call::Acknowledge => {
                for _ in 0..times {
                    assert!(oracle.acknowledge(0).is_some(), "nothing was there to take");
                }
            }
            Call::Idle(_) => oracle.run_many(times, 0, 0),
            Call::Move(..) => {
                let before = window();
                assert_ne!(oracle.window()[512..672], before[..160], "moved before any run");
                oracle.run_many(times, 0, 0);
                assert_eq!(oracle.window()[512..672], before[..160], "a block was not moved");
                *self = Rust::new(self.call).expect("it was there before");
            }
            Call::TakenBack | Call::Save | Call::Load | Call::Loops { .. } => {
                unreachable!("`new` made none")
            }
        }
    }
}
