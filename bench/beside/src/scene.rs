//! Random devices and calls, close to where the rules change: sizes, modulo,
//! counts and links, chains of descriptors, minor offsets, the channels that
//! the Rust treats apart, busy times, priorities, the window's ends.

use crate::call::Call;
use crate::random::Random;
use crate::recorded::place;
use crate::world::World;
use kounpheray::{
    csr, Channel, Controller, Device, DmaRegister, Field, Mode, Register, Source, Tcd, TcdField,
    Time, TCD,
};

/// A device, its memory, and which channels have descriptors.
#[derive(Clone, Debug)]
pub struct Scene {
    pub device: Device,
    pub base: u32,
    pub window: Vec<u8>,
    pub channels: Vec<Channel>,
    /// Those of them that get pending counts; the others get standing
    /// requests, so that a row of calls stays where equality is claimed.
    counted: u64,
    /// Addresses in the window where descriptors lie.
    pub nodes: Vec<u32>,
}

const NOTABLE: [u8; 20] =
    [0, 1, 2, 7, 15, 16, 29, 31, 32, 34, 35, 36, 48, 50, 52, 54, 55, 56, 59, 63];
const TIMES: [u64; 10] = [0, 1, 2, 50, 99, 100, 101, 5000, (1 << 62) - 1, 1 << 62];
const PACES: [u64; 6] = [0, 1, 2, 3, 1000, 1_000_000];

impl Scene {
    /// A scene in the old mode, mostly where equality with the Rust is claimed.
    pub fn new(random: &mut Random) -> Scene {
        Scene::of(random, Mode::Old)
    }

    pub fn of(random: &mut Random, mode: Mode) -> Scene {
        let (base, window) = memory(random);
        let device = Device::builder().mode(mode).ignore_masks(random.once_in(6)).build();
        let mut channels: Vec<Channel> = (0..=random.below(5)).map(|_| channel(random)).collect();
        if random.once_in(4) {
            channels.push(Channel::PACED);
        }
        let counted = match mode {
            Mode::Old => some_counted(random, &channels),
            // A standing request is met in every turn: mostly counts are used.
            Mode::Chip if random.once_in(5) => random.word(),
            Mode::Chip => u64::MAX,
        };
        let mut scene = Scene { device, base, window, channels, counted, nodes: Vec::new() };
        scene.put_nodes(random);
        scene.put_descriptors(random);
        scene.put_dma(random);
        scene.put_controllers(random);
        if mode == Mode::Chip {
            scene.put_priorities(random);
        }
        scene
    }

    /// A scene that can be told in few words: one channel or two, and little
    /// else that is not fresh.
    pub fn small(random: &mut Random, device: Device, base: u32, window: Vec<u8>) -> Scene {
        let channels: Vec<Channel> = (0..=random.below(2)).map(|_| channel(random)).collect();
        let counted = some_counted(random, &channels);
        let mut scene = Scene { device, base, window, channels, counted, nodes: Vec::new() };
        if random.once_in(3) {
            scene.put_nodes(random);
        }
        scene.put_descriptors(random);
        let all = scene.channels.iter().fold(0, |mask, channel| mask | channel.bit());
        scene.put(Field::Kick, all);
        scene.put(Field::Erq, all);
        if random.once_in(3) {
            scene.put(Field::Cr, 0x80);
        }
        scene.put_requests(random);
        if random.once_in(6) {
            let channel = scene.channels[0];
            scene.put(Field::Busy(channel), random.pick(&TIMES));
            scene.put(Field::Deferred, channel.bit());
        }
        scene
    }

    /// A scene in which something interrupts: a few sources with levels, some
    /// on lines and some forced, some of them masked.
    pub fn ringing(random: &mut Random, device: Device, base: u32, window: Vec<u8>) -> Scene {
        let channels = vec![channel(random)];
        let mut scene = Scene { device, base, window, channels, counted: 0, nodes: Vec::new() };
        for _ in 0..=random.below(3) {
            let controller = random.pick(&Controller::ALL);
            let source = random.below(64);
            let level = random.pick(&[0, 1, 2, 3, 5, 6, 7, 7, 0x0F, 0xFA]);
            scene.put(Field::SourceLevel(controller, Source::new(source as u8)), level);
            let raised =
                if random.once_in(2) { Field::Frc(controller) } else { Field::Lines(controller) };
            let there = scene.device.get(raised);
            scene.put(raised, there | 1 << source);
            if !random.once_in(5) {
                let masks = scene.device.get(Field::Imr(controller));
                scene.put(Field::Imr(controller), masks & !(1 << source));
            }
        }
        scene
    }

    /// A scene in the chip's mode with many channels that have work at once,
    /// half of the time linked to each other. Their moves stay in small parts of
    /// the window, so that a run can go on for all of its turns; now and then one
    /// of them is as in any scene.
    pub fn crowd(random: &mut Random) -> Scene {
        let base = 0x8000_0000;
        let mut window = vec![0; 512];
        random.fill(&mut window);
        let device = Device::builder().mode(Mode::Chip).build();
        let count = random.pick(&[2, 3, 3, 5, 12, 40]);
        let channels: Vec<Channel> = (0..count).map(|_| channel(random)).collect();
        let nodes = vec![base + 256, base + 300];
        let linked = random.once_in(2);
        let mut scene = Scene { device, base, window, channels, counted: u64::MAX, nodes };
        for node in scene.nodes.clone() {
            let at = (node - base) as usize;
            let tcd = scene.tame(random, linked);
            scene.window[at..at + TCD].copy_from_slice(&tcd.to_bytes());
        }
        for channel in scene.channels.clone() {
            let tcd = scene.tame(random, linked);
            scene.device.set_descriptor(channel, &tcd);
            scene.put(Field::Pending(channel), random.pick(&[0, 0, 1, 2, 3, 9]));
            if random.once_in(12) {
                scene.put(Field::Busy(channel), random.pick(&TIMES));
            }
        }
        if random.once_in(4) {
            let (channel, tcd) = (random.pick(&scene.channels), scene.tcd(random));
            scene.device.set_descriptor(channel, &tcd);
            scene.put(Field::Cr, 0x80);
            scene.put_controllers(random);
        }
        for field in [Field::Erq, Field::Kick, Field::Deferred] {
            let mask = scene.mask(random);
            scene.put(field, mask);
        }
        if random.once_in(6) {
            scene.put(Field::Standing, random.pick(&scene.channels.clone()).bit());
        }
        scene.put_priorities(random);
        scene
    }

    /// A descriptor whose addresses stay in 32 bytes each.
    fn tame(&self, random: &mut Random, linked: bool) -> Tcd {
        let scode = random.pick(&[0, 1, 2]);
        let dcode = if random.once_in(5) { random.pick(&[0, 1, 2]) } else { scode };
        let flag = |random: &mut Random, n, bit| if random.once_in(n) { bit } else { 0 };
        let esg = random.once_in(8);
        let control = flag(random, 2, csr::START)
            | flag(random, 4, csr::INTMAJOR)
            | flag(random, 4, csr::INTHALF)
            | flag(random, 8, csr::DREQ)
            | flag(random, 2, if linked { csr::MAJORELINK } else { 0 })
            | if esg { csr::ESG } else { 0 };
        let loops = random.pick(&[0, 1, 1, 1, 2, 3]);
        let link = 0x8000 | u16::from(random.pick(&self.channels).number()) << 9;
        let count = loops | flag(random, 2, if linked { link } else { 0 });
        Tcd {
            saddr: self.base + random.below(32) as u32,
            attr: 5 << 11 | scode << 8 | 5 << 3 | dcode,
            soff: step(random, scode),
            nbytes: random.pick(&[1, 1, 2, 3, 4]),
            slast: 0,
            daddr: self.base + 64 + random.below(32) as u32,
            citer: count,
            doff: step(random, dcode),
            dlast: if esg { random.pick(&self.nodes) } else { 0 },
            biter: count,
            csr: control | u16::from(random.pick(&self.channels).number()) << 8,
        }
    }

    /// A call that gives a channel work: requests, or a start of one or of all.
    pub fn work(&self, random: &mut Random) -> Call {
        let channel = u32::from(random.pick(&self.channels).number());
        match random.below(8) {
            0 => Call::Write { address: 0xFC04_401E, size: 1, value: 0x40 },
            1..=3 => Call::Write { address: 0xFC04_401E, size: 1, value: channel },
            _ => Call::Pending { channel, count: random.pick(&[1, 2, 5]) },
        }
    }

    /// A random run or service.
    pub fn run_or_service(&self, random: &mut Random) -> Call {
        let time = Time { now: random.pick(&TIMES), pace: random.pick(&PACES) };
        if random.once_in(3) {
            Call::Service(time)
        } else {
            Call::Run(time)
        }
    }

    /// The scene as a world, with staging and journal of these lengths that
    /// are not all zero.
    pub fn world(&self, random: &mut Random, staging: usize, journal: usize) -> World {
        let mut world = World {
            image: self.device.image(),
            base: self.base,
            window: self.window.clone(),
            staging: vec![0; staging],
            journal: vec![0; journal],
            used: 0,
        };
        random.fill(&mut world.staging);
        random.fill(&mut world.journal);
        if self.device.mode() == Mode::Chip && random.once_in(2) {
            // More than the six bits that count.
            for channel in self.channels.iter().chain([&channel(random)]) {
                let byte = place(Field::Priority(*channel)) + 7;
                world.image[byte] |= random.pick(&[0, 0x40, 0x80, 0xC0]);
            }
        }
        world
    }

    /// A random call that has something to do with this scene.
    pub fn call(&self, random: &mut Random) -> Call {
        match random.below(100) {
            0..=24 => Call::Run(self.time(random)),
            25..=39 => Call::Service(self.time(random)),
            40..=49 => self.descriptor_write(random),
            50..=67 => self.register_write(random),
            68..=77 => self.register_read(random),
            78..=82 => Call::Inputs {
                standing: self.standing(random),
                lines: [random.word(), random.word() & random.word(), random.word()],
            },
            83..=89 => self.pending(random),
            90..=95 => Call::Acknowledge { ipl: random.pick(&[0, 1, 2, 3, 5, 6, 7, 8, 255]) },
            _ => Call::TakeBack,
        }
    }

    fn standing(&self, random: &mut Random) -> u64 {
        let mask = self.mask(random);
        if random.once_in(40) {
            mask
        } else {
            mask & !self.counted
        }
    }

    fn pending(&self, random: &mut Random) -> Call {
        let channel = match random.below(40) {
            0 => 64 + random.below(3) as u32,
            1 => u32::from(self.some_channel(random).number()),
            _ => {
                let of_these: Vec<u32> = (0..64).filter(|n| self.counted >> n & 1 == 1).collect();
                if of_these.is_empty() {
                    return self.register_read(random);
                }
                random.pick(&of_these)
            }
        };
        // Rarely so many that the next sum is at 2^32 - 1 or past it: a run
        // then goes on for as long as it can.
        let counts = [0, 1, 2, 3, 9, 600];
        let count = match random.below(150) as usize {
            most @ 0..=5 => u32::MAX - [3, 1, 0][most % 3],
            other => counts[other % 6],
        };
        Call::Pending { channel, count }
    }

    fn time(&self, random: &mut Random) -> Time {
        if random.once_in(60) {
            let over = random.once_in(2);
            return Time {
                now: if over { (1 << 62) + 1 } else { 0 },
                pace: if over { 0 } else { 1_000_001 },
            };
        }
        Time { now: random.pick(&TIMES), pace: random.pick(&PACES) }
    }

    /// A channel of the scene, or now and then any.
    fn some_channel(&self, random: &mut Random) -> Channel {
        if random.once_in(12) {
            channel(random)
        } else {
            random.pick(&self.channels)
        }
    }

    /// A mask of some of the scene's channels, now and then of any.
    fn mask(&self, random: &mut Random) -> u64 {
        let all = self.channels.iter().fold(0, |mask, channel| mask | channel.bit());
        match random.below(5) {
            0 => 0,
            1 => all,
            2 => random.word() & random.word(),
            _ => all & random.word(),
        }
    }

    /// An address that is mostly in the window, often near an end of it.
    fn address(&self, random: &mut Random) -> u32 {
        let len = self.window.len() as u64;
        let at = match random.below(64) {
            0..=2 => len.wrapping_sub(random.below(40)),
            3 => random.below(4).wrapping_sub(2),
            4 => random.word(),
            _ => random.below(len.div_ceil(2)),
        };
        self.base.wrapping_add(at as u32)
    }

    /// A descriptor that mostly moves something inside the window.
    pub fn tcd(&self, random: &mut Random) -> Tcd {
        let (scode, dcode) = (size_code(random), size_code(random));
        let dcode = if random.once_in(3) { dcode } else { scode };
        let esg = !self.nodes.is_empty() && random.once_in(3);
        let control = random.word() as u16 & random.word() as u16;
        let control = control & !csr::ESG | if esg { csr::ESG } else { 0 };
        let biter = self.count(random);
        Tcd {
            saddr: self.address(random),
            attr: modulo(random) << 11 | scode << 8 | modulo(random) << 3 | dcode,
            soff: step(random, scode),
            nbytes: nbytes(random),
            slast: last(random),
            daddr: self.address(random),
            citer: if random.once_in(3) { self.count(random) } else { biter },
            doff: step(random, dcode),
            dlast: if esg { random.pick(&self.nodes) } else { last(random) },
            biter,
            csr: self.links_within(random, control),
        }
    }

    /// Control bits whose major link mostly leads to a channel of the scene.
    fn links_within(&self, random: &mut Random, control: u16) -> u16 {
        if random.once_in(5) {
            return control;
        }
        let to = self.some_channel(random);
        control & 0xC0FF | u16::from(to.number()) << 8
    }

    fn count(&self, random: &mut Random) -> u16 {
        let loops = random.pick(&[0, 1, 1, 1, 2, 2, 3, 4, 5, 8, 17]);
        match random.below(12) {
            0 => random.word() as u16,
            1..=4 => 0x8000 | u16::from(self.some_channel(random).number()) << 9 | loops,
            _ => loops,
        }
    }

    /// Descriptors in the window, linked into chains and rings.
    fn put_nodes(&mut self, random: &mut Random) {
        if self.window.len() < 4 * TCD || random.once_in(2) {
            return;
        }
        let places = (self.window.len() - TCD) as u64;
        for _ in 0..=random.below(3) {
            let at = random.below(places + 1);
            self.nodes.push(self.base.wrapping_add(at as u32));
        }
        for node in self.nodes.clone() {
            let tcd = self.tcd(random);
            let at = node.wrapping_sub(self.base) as usize;
            self.window[at..at + TCD].copy_from_slice(&tcd.to_bytes());
        }
    }

    fn put_descriptors(&mut self, random: &mut Random) {
        for channel in self.channels.clone() {
            let tcd = self.tcd(random);
            self.device.set_descriptor(channel, &tcd);
        }
    }

    fn put(&mut self, field: Field, value: u64) {
        self.device.set(field, value).expect("the value fits");
    }

    fn put_dma(&mut self, random: &mut Random) {
        let emlm = if random.once_in(2) { 0x80 } else { 0 };
        self.put(Field::Cr, random.below(1 << 32) & !0x80 | emlm);
        let fields = [Field::Erq, Field::Eei, Field::Int, Field::Err, Field::Kick, Field::Deferred];
        for field in fields {
            let mask = self.mask(random);
            self.put(field, mask);
        }
        if random.once_in(2) {
            self.put(Field::Deadline, random.pick(&TIMES));
        }
        for channel in self.channels.clone() {
            if random.once_in(4) {
                self.put(Field::Busy(channel), random.pick(&TIMES));
            }
            if random.once_in(8) {
                self.put(Field::Majors(channel), random.pick(&[1, u64::MAX - 1, u64::MAX]));
            }
        }
        self.put_requests(random);
    }

    fn put_requests(&mut self, random: &mut Random) {
        for channel in self.channels.clone() {
            if self.counted & channel.bit() != 0 {
                self.put(Field::Pending(channel), random.pick(&[0, 1, 2, 3, 40]));
            }
        }
        let standing = self.standing(random);
        self.put(Field::Standing, standing);
    }

    /// Priorities among which some are equal.
    fn put_priorities(&mut self, random: &mut Random) {
        for channel in self.channels.clone() {
            let own = u64::from(channel.number());
            self.put(Field::Priority(channel), random.pick(&[own, 0, 1, 5, 5, 32, 62, 63]));
        }
    }

    fn put_controllers(&mut self, random: &mut Random) {
        for controller in Controller::ALL {
            let masks = [u64::MAX, 0, random.word()];
            self.put(Field::Imr(controller), random.pick(&masks));
            let few = random.word() & random.word() & random.word();
            self.put(Field::Frc(controller), if random.once_in(2) { few } else { 0 });
            self.put(Field::Lines(controller), random.word() & random.word());
            self.put(Field::Iconfig(controller), random.below(1 << 16));
            for source in 0..64 {
                let byte = if random.once_in(3) { random.below(256) } else { random.below(8) };
                self.put(Field::SourceLevel(controller, Source::new(source)), byte);
            }
            let source = Source::new(random.below(64) as u8);
            self.put(Field::Taken(controller, source), random.pick(&[1, u64::MAX]));
        }
    }

    fn descriptor_write(&self, random: &mut Random) -> Call {
        let channel = self.some_channel(random);
        let field = random.pick(&TcdField::ALL);
        let register = Register::from((channel, field));
        let value = field.of(&self.tcd(random));
        Call::Write { address: register.address(), size: register.size(), value }
    }

    fn register_write(&self, random: &mut Random) -> Call {
        let (address, size) = self.place(random);
        let value = match random.below(4) {
            0 => random.word() as u32,
            1 => random.pick(&[0, 0x40, 0x7F, 0x80, 0xFF, 0x4040_4040]),
            _ => {
                let byte = u32::from(self.some_channel(random).number());
                byte * 0x0101_0101
            }
        };
        Call::Write { address, size, value }
    }

    fn register_read(&self, random: &mut Random) -> Call {
        let (address, size) = self.place(random);
        Call::Read { address, size }
    }

    /// An address and a size among the registers; in the chip's mode often of a
    /// priority.
    fn place(&self, random: &mut Random) -> (u32, u32) {
        if self.device.mode() == Mode::Chip && random.once_in(4) {
            let register = Register::Dma(DmaRegister::Priority(self.some_channel(random)));
            return (register.address(), random.pick(&[1, 1, 1, 1, 2, 4]));
        }
        any_place(random)
    }
}

/// Which channels get pending counts: at most four, and none that the Rust
/// treats apart. Rarely any of them, to go beyond where equality is claimed.
fn some_counted(random: &mut Random, channels: &[Channel]) -> u64 {
    let beyond = random.once_in(60);
    channels.iter().fold(0u64, |counted, channel| {
        let fit = counted.count_ones() < 4 && channel.bit() & oracle::APART == 0;
        if (fit || beyond) && random.once_in(2) {
            counted | channel.bit()
        } else {
            counted
        }
    })
}

/// A window's base and bytes: small, large, and at both ends of the addresses.
fn memory(random: &mut Random) -> (u32, Vec<u8>) {
    let len = random.pick(&[1, 2, 3, 31, 64, 65, 160, 256, 320, 512, 1024, 2048]) as usize;
    let end = (1u64 << 32) - len as u64;
    let base = match random.below(6) {
        0 => 0,
        1 => end,
        2 => random.below(end),
        _ => 0x8000_0000 + random.below(32),
    };
    let mut window = vec![0; len];
    random.fill(&mut window);
    (base as u32, window)
}

fn channel(random: &mut Random) -> Channel {
    if random.once_in(3) {
        Channel::new(random.below(64) as u8)
    } else {
        Channel::new(random.pick(&NOTABLE))
    }
}

fn size_code(random: &mut Random) -> u16 {
    random.pick(&[0, 0, 1, 1, 2, 2, 2, 3, 4, 4, 5, 6, 7])
}

pub(crate) fn modulo(random: &mut Random) -> u16 {
    if random.once_in(4) {
        random.pick(&[1, 2, 3, 4, 5, 6, 7, 8, 16, 30, 31])
    } else {
        0
    }
}

pub(crate) fn step(random: &mut Random, code: u16) -> i16 {
    let size = [1, 2, 4, 1, 16, 32, 1, 1][usize::from(code)];
    match random.below(40) {
        0 => random.pick(&[i16::MIN, i16::MAX]),
        1 => random.word() as i16,
        2..=9 => random.pick(&[-size, 0, 1, 2 * size]),
        _ => size,
    }
}

fn nbytes(random: &mut Random) -> u32 {
    let few = random.pick(&[1, 2, 3, 4, 5, 6, 7, 8, 12, 15, 16, 17, 31, 32, 33, 40, 64, 160]);
    match random.below(60) {
        0 => 0,
        1 => random.word() as u32,
        2 => 1 << 30 | few,
        3..=20 => {
            // A minor offset on the source, the destination or both.
            let offset = random.pick(&[0, 1, 4, 16, 0xF_FFFF, 0xF_FFF8, 0x8_0000, 0x7_FFFF]);
            (random.below(4) as u32) << 30 | offset << 10 | few
        }
        _ => few,
    }
}

pub(crate) fn last(random: &mut Random) -> u32 {
    let any = random.word() as u32;
    random.pick(&[0, 0, 4, 16, 0xFFFF_FFFC, 0xFFFF_FF60, 0x8000_0000, any])
}

/// An address and a size among the registers, rarely outside.
fn any_place(random: &mut Random) -> (u32, u32) {
    let block = random.pick(&[0xFC04_4000, 0xFC04_4000, 0xFC04_8000, 0xFC04_C000, 0xFC05_0000]);
    let table = block == 0xFC04_4000;
    let (offset, size) = match random.below(20) {
        0 => (random.below(0x4000), random.pick(&[1, 2, 4])),
        1 => {
            let edges = [0xFFF, 0x17FD, 0x17FF, 0x1800, 0x13F, 0x140, 0x7E, 0x7F, 0x80];
            (random.pick(&edges), random.pick(&[1, 2, 4]))
        }
        2..=6 if table => (0x1000 + random.below(0x800), random.pick(&[1, 2, 4])),
        2..=6 => (0x40 + random.below(0x40), random.pick(&[1, 1, 2, 4])),
        7..=11 => (0x18 + random.below(8), 1),
        12 => (random.pick(&[0x18, 0x1C]), random.pick(&[2, 4])),
        13 => (random.below(0x18), random.pick(&[1, 2])),
        _ => (4 * random.below(0x0E), 4),
    };
    match random.below(60) {
        0 => (block + offset as u32, random.pick(&[0, 3, 5, 8, u32::MAX])),
        1 => (random.pick(&[0, 0xFC04_3FFF, 0xFC05_4000, 0x8000_0000, u32::MAX]), size),
        _ if random.once_in(2) => (block + offset as u32 / size * size, size),
        _ => (block + offset as u32, size),
    }
}
