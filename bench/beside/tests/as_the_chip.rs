//! Document 02, [10], case by case: who is served in the chip's mode, in which
//! order and how often, and its registers, fields and records in both modes.

use beside::call::Call;
use beside::lab::{fresh, put, AT_ONCE, BASE};
use beside::world::World;
use kounpheray::{
    csr, Bench, Channel, Controller, Count, Device, DmaRegister, Field, Mode, Priority, Record,
    Refusal, Register, Select, Tcd, Time, IMAGE, RECORD,
};

const LOW: Channel = Channel::new(3);
const MIDDLE: Channel = Channel::new(9);
const HIGH: Channel = Channel::new(40);
const PACED: Channel = Channel::PACED;

/// A byte from a place to a place, so many loops long. The addresses stay.
fn byte(loops: u16, control: u16) -> Tcd {
    let (citer, biter) = (loops, loops);
    Tcd { saddr: BASE, nbytes: 1, daddr: BASE + 8, citer, biter, csr: control, ..Tcd::default() }
}

/// A device in the chip's mode with these descriptors, all of their requests
/// enabled.
fn device(tcds: &[(Channel, Tcd)]) -> Device {
    let mut device = fresh(Mode::Chip);
    for (channel, tcd) in tcds {
        device.set_descriptor(*channel, tcd);
    }
    let all = tcds.iter().fold(0, |mask, (channel, _)| mask | channel.bit());
    put(&mut device, Field::Erq, all);
    device
}

fn bench(device: Device) -> Bench {
    Bench::new(BASE, (0..16).collect()).with_device(device)
}

/// Which channels were served, in order: each pass here stores one byte.
fn served(bench: &Bench) -> Vec<Channel> {
    let journal = bench.journal();
    let last = journal.groups().next_back().expect("an act stands");
    last.stores().map(|stored| stored.channel).collect()
}

/// Who a run of this device serves.
fn order(device: Device) -> Vec<Channel> {
    let mut bench = bench(device);
    bench.run(AT_ONCE).expect("nothing leaves the window");
    served(&bench)
}

fn loops_left(bench: &Bench, channel: Channel) -> u16 {
    Count::from_raw(bench.descriptor(channel).citer).loops()
}

#[test]
fn one_loop_a_start() -> Result<(), Refusal> {
    let mut bench = bench(device(&[(LOW, byte(3, csr::START))]));
    bench.run(AT_ONCE)?;
    assert_eq!(served(&bench), [LOW]);
    assert_eq!(bench.descriptor(LOW).csr, csr::ACTIVE);
    bench.run(AT_ONCE)?;
    assert_eq!(served(&bench), [], "no START is left");
    for left in [1, 3] {
        bench.write(DmaRegister::Start, Select::Channel(LOW).value())?;
        bench.run(AT_ONCE)?;
        assert_eq!((served(&bench), loops_left(&bench, LOW)), (vec![LOW], left));
    }
    assert_eq!(bench.device().get(Field::Majors(LOW)), 1, "the major loop has three loops");
    Ok(())
}

#[test]
fn order_by_number_and_priority() -> Result<(), kounpheray::TooWide> {
    let start = byte(2, csr::START);
    let mut device = device(&[(LOW, start), (MIDDLE, start), (HIGH, start)]);
    assert_eq!(order(device.clone()), [HIGH, MIDDLE, LOW], "priorities are the numbers");
    device.set_priority(HIGH, Priority::new(2))?;
    assert_eq!(order(device.clone()), [MIDDLE, LOW, HIGH]);
    device.set_priority(MIDDLE, Priority::new(3))?;
    assert_eq!(order(device.clone()), [MIDDLE, LOW, HIGH], "the higher number among equals");
    device.set_priority(LOW, Priority::new(63))?;
    device.set_priority(HIGH, Priority::new(3))?;
    assert_eq!(order(device.clone()), [LOW, HIGH, MIDDLE]);
    device.set_priority(LOW, Priority::new(0))?;
    assert_eq!(order(device), [HIGH, MIDDLE, LOW]);
    Ok(())
}

/// After each loop it is looked afresh: what a link starts may come first.
#[test]
fn looked_afresh_after_each_loop() {
    let linking = Tcd { citer: Count::Linked(4, HIGH).raw(), ..byte(4, 0) };
    let mut two = device(&[(LOW, linking), (HIGH, byte(9, 0))]);
    put(&mut two, Field::Pending(LOW), 3);
    assert_eq!(order(two.clone()), [LOW, HIGH, LOW, HIGH, LOW, HIGH]);
    two.set_priority(LOW, Priority::new(50)).expect("it has six bits");
    assert_eq!(order(two), [LOW, LOW, LOW, HIGH], "started three times, served once");
}

#[test]
fn a_request_a_loop() -> Result<(), Refusal> {
    let mut two = device(&[(LOW, byte(9, 0)), (HIGH, byte(9, 0))]);
    put(&mut two, Field::Pending(LOW), 2);
    put(&mut two, Field::Pending(HIGH), 1);
    let mut bench = bench(two.clone());
    bench.run(AT_ONCE)?;
    assert_eq!(served(&bench), [HIGH, LOW, LOW]);
    assert_eq!([LOW, HIGH].map(|channel| bench.device().get(Field::Pending(channel))), [0, 0]);
    put(&mut two, Field::Erq, LOW.bit());
    assert_eq!(order(two), [LOW, LOW], "a request needs ERQ");
    Ok(())
}

/// START spends no count, and comes before the requests of its own channel.
#[test]
fn a_start_beside_requests() -> Result<(), Refusal> {
    let mut one = device(&[(LOW, byte(9, csr::START))]);
    put(&mut one, Field::Pending(LOW), 2);
    let mut bench = bench(one.clone());
    bench.run(AT_ONCE)?;
    assert_eq!((served(&bench), loops_left(&bench, LOW)), (vec![LOW; 3], 6));
    // Not even one is spent where START alone leads to the loop.
    put(&mut one, Field::Erq, 0);
    let mut bench = self::bench(one);
    bench.run(AT_ONCE)?;
    assert_eq!((served(&bench), bench.device().get(Field::Pending(LOW))), (vec![LOW], 2));
    Ok(())
}

/// A standing request is met in every turn, and spends a count if there is one.
#[test]
fn a_standing_request() -> Result<(), Refusal> {
    let mut one = device(&[(LOW, byte(5, csr::DREQ))]);
    put(&mut one, Field::Standing, LOW.bit());
    put(&mut one, Field::Pending(LOW), 2);
    let mut bench = bench(one);
    bench.run(AT_ONCE)?;
    assert_eq!(served(&bench), [LOW; 5], "until DREQ takes ERQ away at the major end");
    assert_eq!(bench.device().get(Field::Pending(LOW)), 0);
    assert_eq!(bench.device().get(Field::Standing), LOW.bit());
    Ok(())
}

/// One whose pass answers no has its turn and is passed over; its KICK bit and
/// one count, if no START led to it, go all the same.
#[test]
fn a_no_is_passed_over() -> Result<(), Refusal> {
    let nothing = Tcd { citer: 0, ..byte(0, 0) };
    let mut two = device(&[(HIGH, nothing), (LOW, byte(2, csr::START))]);
    put(&mut two, Field::Pending(HIGH), 3);
    put(&mut two, Field::Kick, HIGH.bit() | LOW.bit() | MIDDLE.bit());
    let mut bench = bench(two.clone());
    bench.run(AT_ONCE)?;
    assert_eq!(served(&bench), [LOW]);
    assert_eq!(bench.device().get(Field::Pending(HIGH)), 2, "passed over, so asked once");
    assert_eq!(bench.device().get(Field::Kick), MIDDLE.bit(), "one that is not served keeps it");
    bench.run(AT_ONCE)?;
    assert_eq!(bench.device().get(Field::Pending(HIGH)), 1, "the next call asks again");
    two.set_descriptor(HIGH, &Tcd { csr: csr::START, ..nothing });
    let mut bench = self::bench(two);
    bench.run(AT_ONCE)?;
    assert_eq!(bench.device().get(Field::Pending(HIGH)), 3);
    assert_eq!(bench.descriptor(HIGH).csr, csr::START, "a no changes no descriptor");
    Ok(())
}

/// Busy past `now`: not served, and neither KICK nor DEFERRED changes.
#[test]
fn busy_channels_wait() -> Result<(), Refusal> {
    for start in [0, csr::START] {
        let mut two = device(&[(HIGH, byte(2, start)), (LOW, byte(2, csr::START))]);
        put(&mut two, Field::Pending(HIGH), 1);
        put(&mut two, Field::Busy(HIGH), 100);
        put(&mut two, Field::Kick, HIGH.bit());
        let mut bench = bench(two);
        bench.run(Time { now: 99, pace: 0 })?;
        assert_eq!(served(&bench), [LOW]);
        let kept = [Field::Kick, Field::Deferred].map(|field| bench.device().get(field));
        assert_eq!(kept, [HIGH.bit(), 0]);
        bench.run(Time { now: 100, pace: 0 })?;
        assert_eq!(served(&bench)[0], HIGH, "a time that is not past `now` holds nothing back");
        assert_eq!(bench.device().get(Field::Busy(HIGH)), 100, "a run ends no busy time");
    }
    Ok(())
}

#[test]
fn channel_35_keeps_its_pace() -> Result<(), Refusal> {
    let five = Tcd { nbytes: 5, ..byte(9, 0) };
    let mut one = device(&[(PACED, five)]);
    put(&mut one, Field::Standing, PACED.bit());
    put(&mut one, Field::Pending(PACED), 7);
    put(&mut one, Field::Kick, PACED.bit());
    let mut bench = bench(one);
    let times = |bench: &Bench| {
        [Field::Busy(PACED), Field::Deadline].map(|field| bench.device().get(field))
    };
    bench.run(Time { now: 1000, pace: 20 })?;
    assert_eq!((served(&bench), loops_left(&bench, PACED)), (vec![PACED; 5], 8), "one loop");
    assert_eq!(times(&bench), [1100, 1100]);
    assert_eq!(bench.device().get(Field::Pending(PACED)), 7, "it spends no count");
    bench.run(Time { now: 1099, pace: 20 })?;
    assert_eq!(served(&bench), [], "busy");
    bench.run(Time { now: 1100, pace: 20 })?;
    assert_eq!(loops_left(&bench, PACED), 7);
    assert_eq!(times(&bench), [1200, 1100], "the deadline is never later");
    Ok(())
}

#[test]
fn channel_35_started() -> Result<(), Refusal> {
    let mut one = device(&[(PACED, byte(9, csr::START))]);
    put(&mut one, Field::Pending(PACED), 7);
    put(&mut one, Field::Erq, 0);
    let mut bench = bench(one);
    bench.run(Time { now: 1000, pace: 20 })?;
    assert_eq!(served(&bench), [PACED]);
    let fields = [Field::Busy(PACED), Field::Deadline, Field::Pending(PACED)];
    assert_eq!(fields.map(|field| bench.device().get(field)), [0, u64::MAX, 7]);
    Ok(())
}

/// The bytes are the raw `nbytes` as it was before the loop; a no counts 0.
#[test]
fn what_channel_35_counts() {
    let node = Tcd { nbytes: 3, ..byte(1, 0) };
    let cases = [
        (byte(0, 0), 0),
        (Tcd { nbytes: 0x4000_0001, ..byte(2, 0) }, 0x4000_0001),
        // Scatter/gather puts another descriptor in its place.
        (Tcd { nbytes: 2, dlast: BASE + 16, csr: csr::ESG, ..byte(1, 0) }, 2),
    ];
    for (tcd, bytes) in cases {
        let mut one = device(&[(PACED, tcd)]);
        put(&mut one, Field::Standing, PACED.bit());
        put(&mut one, Field::Deadline, 2000);
        put(&mut one, Field::Cr, 0x80);
        let window = [vec![0; 16], node.to_bytes().to_vec()].concat();
        let mut bench = Bench::new(BASE, window).with_device(one);
        bench.run(Time { now: 1000, pace: 3 }).expect("nothing leaves the window");
        let busy = 1000 + 3 * bytes;
        assert_eq!(bench.device().get(Field::Busy(PACED)), busy, "{tcd:x?}");
        assert_eq!(bench.device().get(Field::Deadline), busy.min(2000), "{tcd:x?}");
    }
}

/// Without a pace channel 35 is never busy past `now`: it has every turn.
#[test]
fn channel_35_without_a_pace() -> Result<(), Refusal> {
    let mut two = device(&[(PACED, byte(9, 0)), (HIGH, byte(9, csr::START))]);
    put(&mut two, Field::Standing, PACED.bit());
    let mut bench = bench(two);
    bench.run(Time { now: 5, pace: 0 })?;
    assert_eq!(served(&bench)[..2], [HIGH, PACED]);
    assert_eq!(served(&bench).len(), 4096);
    Ok(())
}

/// A service runs only if a KICK bit is set once busy and deferred channels were
/// offered; then all that have work are served.
#[test]
fn service_asks_for_a_kick_bit() -> Result<(), Refusal> {
    let mut two = device(&[(LOW, byte(2, csr::START)), (HIGH, byte(2, 0))]);
    put(&mut two, Field::Pending(HIGH), 1);
    let mut idle = bench(two.clone());
    idle.service(AT_ONCE)?;
    assert_eq!(served(&idle), []);
    assert_eq!(idle.used(), 16, "its group is the end record");
    put(&mut two, Field::Kick, MIDDLE.bit());
    let mut bench = bench(two.clone());
    bench.service(AT_ONCE)?;
    assert_eq!(served(&bench), [HIGH, LOW]);
    assert_eq!(bench.device().get(Field::Kick), MIDDLE.bit(), "nothing serves channel 9");
    // DEFERRED joins KICK where it requests, and goes.
    put(&mut two, Field::Kick, 0);
    put(&mut two, Field::Deferred, HIGH.bit() | MIDDLE.bit());
    let mut bench = self::bench(two.clone());
    bench.service(AT_ONCE)?;
    assert_eq!(served(&bench), [HIGH, LOW]);
    assert_eq!([Field::Kick, Field::Deferred].map(|f| bench.device().get(f)), [0, 0]);
    // A busy time that is over is 0 then, and its channel joins with ERQ.
    put(&mut two, Field::Deferred, 0);
    put(&mut two, Field::Busy(HIGH), 7);
    let mut bench = self::bench(two);
    bench.service(Time { now: 7, pace: 0 })?;
    assert_eq!(served(&bench), [HIGH, LOW]);
    assert_eq!(bench.device().get(Field::Busy(HIGH)), 0);
    Ok(())
}

/// A ring of links has 4,096 turns, and what comes behind it none.
#[test]
fn at_most_4_096_turns() -> Result<(), Refusal> {
    let to = |channel: Channel| csr::START | csr::MAJORELINK | csr::link_to(channel);
    let ring = [(MIDDLE, byte(1, to(HIGH))), (HIGH, byte(1, to(MIDDLE)))];
    let mut three = device(&[ring[0], ring[1], (LOW, byte(1, csr::START))]);
    let mut bench = bench(three.clone());
    bench.run(AT_ONCE)?;
    let passes = served(&bench);
    assert_eq!(passes.len(), 4096);
    assert_eq!(passes[..5], [HIGH, MIDDLE, HIGH, MIDDLE, HIGH]);
    assert!(!passes.contains(&LOW));
    assert_eq!(bench.descriptor(LOW).csr, csr::START);
    // A turn that answers no is one of them.
    let nothing = Channel::new(50);
    three.set_descriptor(nothing, &byte(0, csr::START));
    assert_eq!(order(three).len(), 4095);
    Ok(())
}

/// A served channel loses its KICK bit before its pass: what the pass sets
/// stays, if the channel is not served again.
#[test]
fn kick_bits() -> Result<(), Refusal> {
    // The new descriptor has START and count 0: served, it answers no.
    let next = byte(0, csr::START);
    let tcd = Tcd { dlast: BASE + 16, csr: csr::START | csr::ESG, ..byte(1, 0) };
    let window = [vec![0; 16], next.to_bytes().to_vec()].concat();
    let run = |now_busy: u64| -> Result<u64, Refusal> {
        let mut one = device(&[(PACED, Tcd { csr: csr::ESG, ..tcd }), (LOW, tcd)]);
        put(&mut one, Field::Standing, PACED.bit());
        put(&mut one, Field::Kick, PACED.bit() | LOW.bit());
        let mut bench = Bench::new(BASE, window.clone()).with_device(one);
        bench.run(Time { now: 10, pace: now_busy })?;
        Ok(bench.device().get(Field::Kick))
    };
    assert_eq!(run(0)?, 0, "both are served again, and answer no");
    assert_eq!(run(1)?, PACED.bit(), "busy from its first loop on");
    Ok(())
}

/// Sizes 1, 2 and 4 at and around the priorities, in both modes.
#[test]
fn registers_of_the_priorities() {
    for mode in Mode::ALL {
        for (offset, size) in (0xFC..0x144u32).flat_map(|at| [1, 2, 4].map(|size| (at, size))) {
            let own = offset.wrapping_sub(0x100);
            let there = size == 1 && own < 64;
            let mut bench = bench(fresh(mode));
            let address = 0xFC04_4000 + offset;
            let readable = there && mode == Mode::Chip;
            let wanted = |value| if readable { Ok(value) } else { Err(Refusal::NoRegister) };
            assert_eq!(bench.read_at(address, size), wanted(own), "{mode:?}, {offset:x}");
            let written = bench.write_at(address, size, 0xFFFF_FF95);
            if !there {
                assert_eq!(written, Err(Refusal::NoRegister), "{mode:?}, {offset:x}, {size}");
                continue;
            }
            assert_eq!(written, Ok(()));
            assert_eq!(bench.read_at(address, size), wanted(0x15), "the low six bits are kept");
            let field = Field::Priority(Channel::new(own as u8));
            let journal = bench.journal();
            let records = journal.group(0).expect("one act").records();
            match mode {
                Mode::Old => assert_eq!((records, bench.device()), (&[][..], &fresh(mode))),
                Mode::Chip if own == 0x15 => assert_eq!(records, [], "it was so before"),
                Mode::Chip => assert_eq!(records, [Record::Field(field, own.into())]),
            }
            bench.step_back().expect("one act stands");
            assert_eq!(*bench.device(), fresh(mode));
        }
    }
}

/// A world around an image, with this much journal.
fn world(image: Vec<u8>, journal: usize) -> World {
    let (window, staging) = ((0..16).collect(), vec![7; 8]);
    World { image, base: BASE, window, staging, journal: vec![0xEE; journal], used: 0 }
}

/// Where a channel's priority lies in an image.
fn priority_at(channel: Channel) -> usize {
    2064 + 8 * (768 + usize::from(channel.number())) + 7
}

/// An image may hold eight bits of a priority: the low six are used and
/// recorded; an accepted call lays them down, a refused one leaves all as it was.
#[test]
fn more_than_six_bits_in_an_image() {
    let start = byte(2, csr::START);
    let mut image = device(&[(LOW, start), (HIGH, start)]).image();
    image[priority_at(LOW)] = 0x80 | 41;
    image[priority_at(HIGH)] = 0x40 | 40;
    let mut cut = image.clone();
    cut[priority_at(LOW)] = 41;
    cut[priority_at(HIGH)] = 40;

    let register = |channel| Register::Dma(DmaRegister::Priority(channel)).address();
    let mut read = world(image.clone(), 0);
    let answer = read.checked(Call::Read { address: register(LOW), size: 1 }).expect("as it was");
    assert_eq!((answer.status(), answer.low()), (0, 41));

    for call in [Call::Run(AT_ONCE), Call::Acknowledge { ipl: 0 }, Call::TakeBack] {
        let mut refused = world(image.clone(), 0);
        let answer = refused.checked(call).unwrap_or_else(|told| panic!("{told}"));
        assert_ne!(answer.status(), 0);
        assert_eq!(refused.image, image, "{call:?}");
    }
    for call in [
        Call::Acknowledge { ipl: 0 },
        Call::Inputs { standing: 0, lines: [0; 3] },
        Call::Pending { channel: 1, count: 0 },
        Call::Write { address: register(LOW), size: 1, value: 0xC0 | 41 },
        Call::Service(AT_ONCE),
    ] {
        let mut accepted = world(image.clone(), 64);
        let answer = accepted.checked(call).unwrap_or_else(|told| panic!("{told}"));
        assert_eq!((answer.status(), answer.low()), (0, 16), "{call:?}: no field differs");
        assert!(accepted.image == cut, "{call:?}: the low six bits are laid down");
    }
    let mut ran = world(image.clone(), 4096);
    assert_eq!(ran.checked(Call::Run(AT_ONCE)).expect("all in order").status(), 0);
    let passes: Vec<u8> = ran
        .journal
        .chunks(RECORD)
        .filter(|row| row[2..4] == [1, 4] && row[7] % 32 == 0)
        .map(|row| row[6] * 8 + row[7] / 32)
        .collect();
    assert_eq!(passes, [LOW.number(), HIGH.number()], "41 comes before 40");
    // A take-back is accepted too: what it leaves has six bits.
    assert_eq!(ran.checked(Call::TakeBack).expect("all in order").status(), 0);
    assert!(ran.image == cut);
    let mut written = world(image, 64);
    let call = Call::Write { address: register(LOW), size: 1, value: 7 };
    assert_eq!(written.checked(call).expect("all in order").low(), 32);
    assert_eq!(written.journal[8..16], [0, 0, 0, 0, 0, 0, 0, 41], "six bits are recorded");
}

/// A record where the priority differs, behind those of all other fields: here
/// of lines that are not worked out at entry.
#[test]
fn records_of_priorities() -> Result<(), Refusal> {
    let mut start = fresh(Mode::Chip);
    put(&mut start, Field::Int, u64::MAX);
    let mut bench = bench(start.clone());
    bench.write(DmaRegister::Priority(HIGH), 5)?;
    bench.write(DmaRegister::Priority(LOW), 63)?;
    bench.write(DmaRegister::Priority(HIGH), 5)?;
    let journal = bench.journal();
    let records: Vec<&[Record]> = journal.groups().map(|group| group.records()).collect();
    let (high, low) = (Field::Priority(HIGH), Field::Priority(LOW));
    let lines = Controller::ALL.map(|controller| Record::Field(Field::Lines(controller), 0));
    assert_eq!(records[0][..3], lines);
    assert_eq!(records[0][3..], [Record::Field(high, 40)]);
    assert_eq!(records[1], [Record::Field(low, 3)]);
    assert_eq!(records[2], [], "it was so before");
    assert_eq!(bench.journal_bytes()[3 * RECORD + 4..][..4], [0, 0, 3, 0x28], "768 + 40");
    while !bench.acts().is_empty() {
        bench.step_back()?;
    }
    assert_eq!(*bench.device(), start);
    Ok(())
}

/// A take-back of a group of one field record.
fn taken_back(mode: Mode, number: u32, value: u64) -> (u8, World) {
    let mut world = world(fresh(mode).image(), 32);
    let [a, b, c, d] = number.to_be_bytes();
    world.journal[..8].copy_from_slice(&[0x4A, 0x52, 2, 8, a, b, c, d]);
    world.journal[8..16].copy_from_slice(&value.to_be_bytes());
    world.journal[16..].copy_from_slice(&[0x4A, 0x52, 3, 0, 0, 0, 0, 0, 0, 0, 0, 0, 0, 0, 0, 1]);
    world.used = 32;
    let answer = world.checked(Call::TakeBack).unwrap_or_else(|told| panic!("{told}"));
    (answer.status(), world)
}

/// A record of a priority is damaged in the old mode, and where it has more than
/// six bits; numbers from 832 on name nothing in either.
#[test]
fn damaged_records_of_priorities() {
    for number in [768, 769, 800, 831] {
        for value in [0, 1, 62, 63, 64, 65, 127, 128, 255, 256, 1 << 32, u64::MAX] {
            assert_eq!(taken_back(Mode::Old, number, value).0, 13, "{number}, {value}");
            let (status, after) = taken_back(Mode::Chip, number, value);
            assert_eq!(status, if value < 64 { 0 } else { 13 }, "{number}, {value}");
            if value < 64 {
                let at = priority_at(Channel::new((number - 768) as u8));
                assert_eq!(u64::from(after.image[at]), value);
            }
        }
    }
    for mode in Mode::ALL {
        for number in [10, 15, 575, 832, 833, 895, 1024, 768 + 65_536] {
            assert_eq!(taken_back(mode, number, 0).0, 13, "{mode:?}, {number}");
        }
        assert_eq!(taken_back(mode, 767, 0).0, 0, "{mode:?}: the last of the others");
    }
}

/// Saved and loaded, a device is what it was.
#[test]
fn saved_and_loaded() {
    let mut device = device(&[(LOW, byte(2, csr::START))]);
    for channel in Channel::all() {
        put(&mut device, Field::Priority(channel), u64::from(63 - channel.number()));
    }
    let mut image = device.image();
    assert_eq!(image.len(), IMAGE);
    let priorities =
        |image: &[u8]| Channel::all().map(|c| image[priority_at(c)]).collect::<Vec<_>>();
    assert_eq!(priorities(&image), (0..64).rev().collect::<Vec<u8>>());
    assert_eq!(Device::from_image(&image), Some(device.clone()));
    for channel in Channel::all() {
        image[priority_at(channel)] |= 0xC0;
    }
    let loaded = Device::from_image(&image).expect("eight bits are taken");
    assert_eq!(loaded, device, "of which six count");
    assert_eq!(priorities(&loaded.image()), (0..64).rev().collect::<Vec<u8>>());
    image[priority_at(LOW) - 1] = 1;
    assert_eq!(Device::from_image(&image), None, "nine bits");
    let mut old = Device::fresh().image();
    old[priority_at(LOW)] = 1;
    assert_eq!(Device::from_image(&old), None, "no priority in the old mode");
}
