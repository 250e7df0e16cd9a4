//! Demands 1 and 3, over random rows of calls with take-backs, in both modes:
//! what a refusal leaves, and that everything after a row is what the standing
//! calls alone would have made. The Rust is not needed here.

use beside::call::Call;
use beside::lab::fresh;
use beside::random::{seeds, Random};
use beside::scene::Scene;
use beside::world::{seen, World};
use kounpheray::{Field, Mode, RECORD};
use std::collections::BTreeMap;

/// Makes the standing calls alone, from the same start.
fn made_alone(start: &World, standing: &[Call]) -> World {
    let mut world = start.clone();
    for call in standing {
        assert_eq!(world.call(*call).status(), 0, "{call:?} was accepted before");
    }
    world
}

fn assert_stands(world: &World, start: &World, standing: &[Call]) {
    let alone = made_alone(start, standing);
    let alike = seen(&world.image) == seen(&alone.image);
    assert!(alike, "the device is not that of {standing:x?}");
    assert!(world.window == alone.window, "the window is not that of {standing:x?}");
    assert_eq!(world.used, alone.used, "{standing:x?}");
    let used = world.used as usize;
    assert!(world.journal[..used] == alone.journal[..used], "the journal of {standing:x?}");
}

/// A row with many take-backs: after it, what stands is what is there.
fn row(random: &mut Random, mode: Mode, refusals: &mut BTreeMap<u8, u64>) -> u64 {
    let scene = Scene::of(random, mode);
    let staging = random.pick(&[0, 1, 31, 64, 4096]);
    let journal = random.pick(&[0, 15, 16, 47, 160, 1000, 4096, 20_000]);
    let start = scene.world(random, staging, journal);
    let mut world = start.clone();
    let mut standing: Vec<Call> = Vec::new();
    let mut calls = 0;
    for _ in 0..30 {
        let call = if random.once_in(4) { Call::TakeBack } else { scene.call(random) };
        let early = world.early(call);
        let answer = world.checked(call).unwrap_or_else(|told| panic!("{told}"));
        calls += 1;
        let number = answer.status();
        if early.is_some() || matches!(number, 1 | 2 | 4..=8 | 12 | 14) {
            assert_eq!(Some(number), early, "{call:?}");
        }
        match (answer.status(), call) {
            (0, Call::TakeBack) => {
                standing.pop().expect("12 where no act stands");
            }
            (0, Call::Read { .. }) => {}
            (0, _) => standing.push(call),
            (number, _) => {
                *refusals.entry(number).or_default() += 1;
                if number == 12 {
                    assert!(standing.is_empty(), "12 though {} acts stand", standing.len());
                }
                assert_ne!(number, 13, "no journal of the engine's is damaged");
            }
        }
        if random.once_in(10) {
            assert_stands(&world, &start, &standing);
        }
    }
    assert_stands(&world, &start, &standing);
    while standing.pop().is_some() {
        assert_eq!(world.checked(Call::TakeBack).map(|answer| answer.status()), Ok(0));
        assert_stands(&world, &start, &standing);
        calls += 1;
    }
    assert_eq!(world.checked(Call::TakeBack).map(|answer| answer.status()), Ok(12));
    let back = seen(&world.image) == seen(&start.image) && world.window == start.window;
    assert!(back, "back at the start");
    calls
}

#[test]
fn rows_with_take_backs() {
    for mode in Mode::ALL {
        let mut refusals = BTreeMap::new();
        let mut calls = 0;
        for seed in seeds() {
            let mut random = Random::new(1000 + seed);
            for _ in 0..700 {
                calls += row(&mut random, mode, &mut refusals);
            }
        }
        println!("rows with take-backs, {mode:?}: {calls} calls; refusals: {refusals:?}");
        for number in [1, 2, 3, 4, 7, 8, 9, 10, 11, 12, 14] {
            assert!(refusals.contains_key(&number), "refusal {number} never came");
        }
    }
}

/// The same run again with every shorter journal: 11 exactly where the group
/// does not fit, whatever the length is.
#[test]
fn every_shorter_journal() {
    let mut random = Random::new(77);
    let (mut runs, mut refused) = (0, 0);
    while runs < 120 {
        let scene = Scene::of(&mut random, Mode::ALL[runs % 2]);
        let mut start = scene.world(&mut random, 4096, 1 << 14);
        if random.once_in(2) {
            start.call(scene.call(&mut random));
        }
        let call = scene.call(&mut random);
        let mut whole = start.clone();
        let used = start.used as usize;
        let accepted = call.is_act() && whole.call(call).status() == 0;
        let end = whole.used as usize;
        if !accepted || end - used > 16 * 80 || end - used < 32 {
            continue;
        }
        runs += 1;
        for length in used..end + 17 {
            let mut world = start.clone();
            world.journal.truncate(length);
            let answer = world.checked(call).unwrap_or_else(|told| panic!("{told}"));
            let number = if length < end { 11 } else { 0 };
            assert_eq!(answer.status(), number, "{call:?} with a journal of {length}");
            refused += u64::from(number == 11);
            if number == 0 {
                assert!(world.image == whole.image && world.window == whole.window);
            }
        }
    }
    println!("shorter journals: {runs} acts, refused {refused} times");
}

/// The same run again with every shorter staging: 10 exactly where one pass
/// reads more than there is.
#[test]
fn every_shorter_staging() {
    use beside::lab::{memory, one_request_in, AT_ONCE, BASE};
    use kounpheray::{Channel, Size, Tcd};
    let sizes = [Size::One, Size::Two, Size::Four, Size::Sixteen, Size::ThirtyTwo];
    let mut refused = 0;
    for from in sizes {
        for to in sizes {
            for nbytes in [1, 2, 3, 5, 31, 33, 64] {
                let tcd = Tcd {
                    saddr: BASE,
                    attr: Tcd::attr(from, 0, to, 0),
                    soff: from.bytes() as i16,
                    nbytes,
                    daddr: BASE + 128,
                    citer: 2,
                    doff: to.bytes() as i16,
                    biter: 2,
                    ..Tcd::default()
                };
                let read = nbytes.div_ceil(from.bytes()) * from.bytes();
                for (length, mode) in (0..read + 2).flat_map(|n| Mode::ALL.map(|mode| (n, mode))) {
                    let mut world = World {
                        image: one_request_in(mode, Channel::new(8), &tcd).image(),
                        base: BASE,
                        window: memory(256),
                        staging: vec![0xEE; length as usize],
                        journal: vec![0; 4096],
                        used: 0,
                    };
                    let answer =
                        world.checked(Call::Run(AT_ONCE)).unwrap_or_else(|t| panic!("{t}"));
                    let short = from != to && length < read;
                    assert_eq!(answer.status(), if short { 10 } else { 0 }, "{tcd:x?}, {length}");
                    refused += u64::from(short);
                }
            }
        }
    }
    println!("shorter staging: refused {refused} times");
}

/// Of 9, 10 and 11 the first step that meets one decides.
#[test]
fn the_first_step_decides() {
    use beside::lab::{memory, one_request_in, AT_ONCE, BASE};
    use kounpheray::{Channel, Tcd};
    let status = |attr: u16, saddr: u32, daddr: u32, staging: usize, journal: usize| {
        let tcd = Tcd { saddr, attr, nbytes: 4, daddr, citer: 1, biter: 1, ..Tcd::default() };
        let [old, chip] = Mode::ALL.map(|mode| {
            let mut world = World {
                image: one_request_in(mode, Channel::new(8), &tcd).image(),
                base: BASE,
                window: memory(32),
                staging: vec![1; staging],
                journal: vec![1; journal],
                used: 0,
            };
            world.checked(Call::Run(AT_ONCE)).unwrap_or_else(|told| panic!("{told}")).status()
        });
        assert_eq!(old, chip, "one pass is one pass in both modes");
        chip
    };
    let (word, half) = (BASE + 29, BASE + 31);
    assert_eq!(status(0x0202, BASE, word, 0, 0), 9, "9 before 11 at one store");
    assert_eq!(status(0x0202, BASE, BASE, 0, 0), 11);
    assert_eq!(status(0x0202, word, BASE, 0, 0), 9, "a read outside");
    assert_eq!(status(0x0201, word, half, 3, 0), 10, "10 at the start of the pass");
    assert_eq!(status(0x0201, BASE, half, 4, 0), 9);
    assert_eq!(status(0x0201, BASE, BASE, 4, 0), 11, "no room for the first store");
    assert_eq!(status(0x0201, BASE, BASE, 4, 16), 11, "none for the second");
    assert_eq!(status(0x0201, BASE, BASE, 4, 32), 11, "none for the table's");
    assert_eq!(status(0x0201, BASE, BASE, 4, 4096), 0);
}

/// Checks 5 to 8, alone and together, in number order.
#[test]
fn early_refusals() {
    let mut random = Random::new(5);
    let scene = Scene::new(&mut random);
    let sound = scene.world(&mut random, 16, 1 << 12);
    let over = kounpheray::Time { now: (1 << 62) + 1, pace: 0 };
    let pace = kounpheray::Time { now: 0, pace: 1_000_001 };
    let good = kounpheray::Time { now: 1 << 62, pace: 1_000_000 };
    let mut seen = 0;
    for (base, length) in [(0, 0), (0, 1), (u32::MAX, 1), (u32::MAX, 2), (1, (1 << 24) + 1)] {
        for used in [0, 8, 16, 4096, 4112, 1 << 32, u64::MAX - 15] {
            for call in [
                Call::Run(over),
                Call::Service(pace),
                Call::Run(good),
                Call::TakeBack,
                Call::Pending { channel: 64, count: 0 },
                Call::Pending { channel: u32::MAX, count: 0 },
                Call::Write { address: 0xFC04_4000, size: 3, value: 0 },
                Call::Write { address: 0xFC04_4000, size: 1, value: 0 },
                Call::Write { address: 0xFC04_57FE, size: 4, value: 0 },
                Call::Write { address: 0xFC04_800A, size: 4, value: 0 },
                Call::Acknowledge { ipl: 0 },
                Call::Inputs { standing: 0, lines: [0; 3] },
            ] {
                let mut world = sound.clone();
                world.base = base;
                world.window = vec![0x5A; length];
                world.used = used;
                let no_register = call == Call::Write { address: 0xFC04_4000, size: 1, value: 0 };
                let mut expected = call.early(base, length, world.journal.len(), used);
                if no_register {
                    expected = Some(3);
                }
                // Only accepted calls look at what is used of this journal.
                if expected.is_none() {
                    continue;
                }
                let answer = world.checked(call).unwrap_or_else(|told| panic!("{told}"));
                assert_eq!(Some(answer.status()), expected, "{call:?}, used {used:x}");
                seen += 1;
            }
        }
    }
    println!("early refusals: {seen}");
}

/// A device with a journal of so many bytes, and a little memory.
fn with_room(device: &kounpheray::Device, room: usize, used: u64) -> World {
    World {
        image: device.image(),
        base: 0,
        window: vec![1; 3],
        staging: vec![2; 3],
        journal: vec![3; room],
        used,
    }
}

/// Sums below, at and above 2^32 - 1, however they are made up: 14 exactly
/// above, after 6 and 8 and before 11, and nothing is changed then. A count of
/// 0 is accepted and writes its group.
#[test]
fn sums_of_pending_counts() {
    use kounpheray::Channel;
    const MOST: u32 = u32::MAX;
    let counts = [0, 1, 2, 9, 1 << 31, (1 << 31) + 1, MOST - 2, MOST - 1, MOST];
    let mut random = Random::new(14);
    let mut seen = BTreeMap::new();
    for channel in Channel::all() {
        for stands in counts {
            let mut device = fresh(random.pick(&Mode::ALL));
            for other in Channel::all() {
                let count = if other == channel { stands } else { random.pick(&counts) };
                device.set(Field::Pending(other), u64::from(count)).expect("the count fits");
            }
            for count in counts {
                let sum = u64::from(stands) + u64::from(count);
                for (room, used, number) in
                    [(64, 0, 0), (64, 32, 0), (16, 16, 11), (40, 16, 11), (64, 8, 6), (0, 16, 6)]
                {
                    let number = if number != 6 && sum > u64::from(MOST) { 14 } else { number };
                    // Without a change the end record alone is written.
                    let number = if number == 11 && count == 0 && room > 32 { 0 } else { number };
                    let mut world = with_room(&device, room, used);
                    let call = Call::Pending { channel: channel.number().into(), count };
                    let answer = world.checked(call).unwrap_or_else(|told| panic!("{told}"));
                    assert_eq!(answer.status(), number, "{stands} and {count}, {used} of {room}");
                    *seen.entry((number, sum.cmp(&u64::from(MOST)))).or_insert(0) += 1;
                    if number == 0 {
                        let mut wanted = device.clone();
                        wanted.set(Field::Pending(channel), sum).expect("it was not refused");
                        assert!(world.image == wanted.image(), "{stands} and {count}");
                        assert_eq!(world.used, used + if count == 0 { 16 } else { 32 });
                    }
                }
            }
            let mut world = with_room(&device, 64, 0);
            let call = Call::Pending { channel: 64 + u32::from(channel.number()), count: MOST };
            assert_eq!(world.checked(call).map(|answer| answer.status()), Ok(8));
        }
    }
    println!("sums of pending counts, by status and beside 2^32 - 1: {seen:?}");
}

/// Rows of pending calls whose sums come to 2^32 - 1, stay below it or would
/// pass it, with take-backs: what stands is what is there.
#[test]
fn rows_of_pending_counts() {
    use kounpheray::{Channel, Device};
    const MOST: u32 = u32::MAX;
    let mut seen = BTreeMap::new();
    for seed in seeds() {
        let mut random = Random::new(4000 + seed);
        for n in 0..200 {
            let mut device = fresh(Mode::ALL[n % 2]);
            let room = random.pick(&[31, 64, 320, 4096]);
            for channel in [0, 63] {
                let stands = random.pick(&[0, 1, 1 << 31, MOST - 3, MOST - 1, MOST]);
                device.set(Field::Pending(Channel::new(channel)), stands.into()).expect("it fits");
            }
            let start = with_room(&device, room, 0);
            let mut world = start.clone();
            let mut standing: Vec<Call> = Vec::new();
            for _ in 0..40 {
                let channel = random.pick(&[0, 63]);
                let count = random.pick(&[0, 1, 1, 2, 3, 1 << 31, MOST - 3, MOST - 2, MOST - 1]);
                let call = match random.below(3) {
                    0 => Call::TakeBack,
                    _ => Call::Pending { channel, count },
                };
                let early = world.early(call);
                let number = world.checked(call).unwrap_or_else(|told| panic!("{told}")).status();
                match (number, call) {
                    (0, Call::TakeBack) => drop(standing.pop().expect("12 where none stands")),
                    (0, _) => {
                        assert_eq!(early, None, "{call:?}");
                        standing.push(call);
                        let now = Device::from_image(&world.image).expect("it is a device");
                        let sum = now.get(Field::Pending(Channel::new(channel as u8)));
                        let beside = sum.cmp(&u64::from(MOST));
                        *seen.entry((number, Some(beside))).or_insert(0) += 1;
                    }
                    (11, _) => assert_eq!(early, None, "{call:?}"),
                    _ => {
                        assert_eq!(early, Some(number), "{call:?}");
                        *seen.entry((number, None)).or_insert(0) += 1;
                    }
                }
            }
            assert_stands(&world, &start, &standing);
            while standing.pop().is_some() {
                assert_eq!(world.checked(Call::TakeBack).map(|answer| answer.status()), Ok(0));
                assert_stands(&world, &start, &standing);
            }
            assert!(world.image == start.image, "back at the start");
        }
    }
    println!("rows of pending counts, by status and beside 2^32 - 1: {seen:?}");
    use std::cmp::Ordering::{Equal, Less};
    for wanted in [(0, Some(Less)), (0, Some(Equal)), (14, None), (12, None)] {
        assert!(seen.contains_key(&wanted), "{wanted:?} never came");
    }
}

/// The longest window and journal are taken, one byte more is not.
#[test]
fn longest_window_and_journal() {
    use beside::lab::AT_ONCE;
    let device = kounpheray::Device::fresh();
    let world = |window: usize, journal: usize| World {
        image: device.image(),
        base: ((1u64 << 32) - (1 << 24)) as u32,
        window: vec![0; window],
        staging: Vec::new(),
        journal: vec![0; journal],
        used: 0,
    };
    assert_eq!(world(1 << 24, 64).call(Call::Run(AT_ONCE)).status(), 0);
    assert_eq!(world((1 << 24) + 1, 64).call(Call::Run(AT_ONCE)).status(), 5);
    assert_eq!(world(16, 1 << 28).call(Call::Acknowledge { ipl: 0 }).status(), 0);
    assert_eq!(world(16, (1 << 28) + 1).call(Call::Acknowledge { ipl: 0 }).status(), 6);
}

/// A world with some acts standing, the last of them with several records.
fn some_acts(random: &mut Random, mode: Mode) -> World {
    loop {
        let scene = Scene::of(random, mode);
        let mut world = scene.world(random, 4096, 1 << 13);
        for _ in 0..4 {
            world.call(scene.call(random));
        }
        let rows: Vec<&[u8]> = world.journal[..world.used as usize].chunks(RECORD).collect();
        if rows.last().is_some_and(|end| end[15] > 2) {
            return world;
        }
    }
}

/// Takes back, and holds the result to the model.
fn take_back_as_said(mut world: World, kind: &str, counts: &mut BTreeMap<String, (u64, u64)>) {
    let mut expected = world.clone();
    let told = expected.modelled(Call::TakeBack);
    let answer = world.checked(Call::TakeBack).unwrap_or_else(|told| panic!("{kind}: {told}"));
    assert_eq!(answer, told, "{kind}");
    assert!(world == expected, "{kind}: undone to something else");
    let count = counts.entry(kind.to_string()).or_default();
    match answer.status() {
        0 => count.1 += 1,
        _ => count.0 += 1,
    }
}

/// The one change to an end that damages nothing.
const SHORTER: &str = "end: shorter";

/// Damage of every kind that document 01 names, at every record.
fn damages(random: &mut Random, world: &World) -> Vec<(&'static str, World)> {
    let used = world.used as usize;
    let length = usize::from(world.journal[used - 1]);
    let first = used - RECORD * (length + 1);
    let mut made = Vec::new();
    let mut damage = |kind, change: &dyn Fn(&mut World)| {
        let mut other = world.clone();
        change(&mut other);
        made.push((kind, other));
    };
    let end = used - RECORD;
    damage("end: mark", &|w| w.journal[end] ^= 1);
    damage("end: mark", &|w| w.journal[end + 1] ^= 0x80);
    damage("end: kind", &|w| w.journal[end + 2] = 2);
    damage("end: width", &|w| w.journal[end + 3] = 8);
    damage("end: place", &|w| w.journal[end + 7] = 1);
    damage("end: longer than the used part", &|w| w.journal[end + 8] = 1);
    damage("end: longer than the used part", &|w| {
        let rows = (used / RECORD) as u64;
        w.journal[end + 8..used].copy_from_slice(&rows.to_be_bytes());
    });
    damage("end: runs into the group before", &|w| w.journal[used - 1] += 1);
    damage(SHORTER, &|w| w.journal[used - 1] -= 1);
    damage("used length: cut by a record", &|w| w.used -= RECORD as u64);
    for at in (first..end).step_by(RECORD) {
        let byte = random.word() as u8;
        damage("record: mark", &|w| w.journal[at] = 0x4B);
        damage("record: mark", &|w| w.journal[at + 1] = byte);
        damage("record: end inside", &|w| w.journal[at + 2] = 3);
        damage("record: kind", &|w| w.journal[at + 2] = 4 | byte);
        damage("record: other kind", &|w| w.journal[at + 2] = byte % 3);
        damage("record: width", &|w| w.journal[at + 3] = byte);
        damage("record: width", &|w| w.journal[at + 3] = [0, 1, 2, 4, 8, 3][byte as usize % 6]);
        damage("record: place", &|w| w.journal[at + 4] ^= 0x80);
        damage("record: place", &|w| w.journal[at + 6] ^= byte);
        damage("record: place", &|w| w.journal[at + 7] ^= byte);
        damage("record: value", &|w| w.journal[at + 8] |= 1);
        damage("record: value", &|w| w.journal[at + 8 + byte as usize % 8] ^= byte);
        if world.journal[at + 2] == 0 {
            let past = world.base.wrapping_add(world.window.len() as u32);
            let last = past.wrapping_sub(1);
            for place in [past, last, world.base, world.base.wrapping_sub(1)] {
                damage("record: place at the window's ends", &|w| {
                    w.journal[at + 4..at + 8].copy_from_slice(&place.to_be_bytes());
                });
            }
        }
        if world.journal[at + 2] == 1 {
            for place in [2047u32, 2048, 2040, 2041, 2044, 2046] {
                damage("record: place at the table's end", &|w| {
                    w.journal[at + 4..at + 8].copy_from_slice(&place.to_be_bytes());
                });
            }
        }
        if world.journal[at + 2] == 2 {
            for number in [10u32, 15, 28, 63, 448, 511, 512, 575, 768, 831, 832, 65_536] {
                damage("record: no such field", &|w| {
                    w.journal[at + 4..at + 8].copy_from_slice(&number.to_be_bytes());
                });
            }
            for number in [0u16, 8, 19, 27, 192, 255, 256, 447, 9, 767, 768, 831] {
                let bits = Field::from_number(number).expect("a field").bits();
                for value in [1u64.checked_shl(bits).unwrap_or(1), u64::MAX >> (64 - bits)] {
                    damage("record: value at a field's width", &|w| {
                        let place = u32::from(number).to_be_bytes();
                        w.journal[at + 4..at + 8].copy_from_slice(&place);
                        w.journal[at + 8..at + 16].copy_from_slice(&value.to_be_bytes());
                    });
                }
            }
        }
    }
    made
}

#[test]
fn damaged_journals() {
    let mut counts = BTreeMap::new();
    for seed in seeds() {
        let mut random = Random::new(2000 + seed);
        for n in 0..80 {
            let world = some_acts(&mut random, Mode::ALL[n % 2]);
            for (kind, damaged) in damages(&mut random, &world) {
                take_back_as_said(damaged, kind, &mut counts);
            }
        }
    }
    println!("damaged journals: kind, refused with 13, still sound");
    for (kind, (refused, sound)) in &counts {
        println!("  {refused:>8} {sound:>8}  {kind}");
        // A shorter group is a sound one: what stands before it is not asked.
        assert_eq!(*refused == 0, kind == SHORTER, "{kind}");
    }
}

/// Journals in which any byte of any record is changed, and ones of noise.
#[test]
fn journals_of_noise() {
    let mut counts = BTreeMap::new();
    for seed in seeds() {
        let mut random = Random::new(3000 + seed);
        for n in 0..400 {
            let mut world = some_acts(&mut random, Mode::ALL[n % 2]);
            let used = world.used;
            for _ in 0..=random.below(2) {
                let at = random.below(used) as usize;
                world.journal[at] = random.pick(&[0, 1, 2, 3, 4, 8, 0x4A, 0x52, 0xFF]);
            }
            take_back_as_said(world.clone(), "any byte", &mut counts);
            random.fill(&mut world.journal);
            take_back_as_said(world, "noise", &mut counts);
        }
    }
    println!("changed journals: {counts:?} (refused with 13, still sound)");
}

/// An image that is no device: 255 before every other check, nothing changed.
#[test]
fn images_that_are_no_device() {
    for mode in Mode::ALL {
        no_device(mode);
    }
    let mut short = vec![1; 8719];
    assert_eq!(images::fresh(&mut short, 0, 0).status(), 255);
    assert!(short.iter().all(|&byte| byte == 1), "a refused image is unchanged");
    let mut image = vec![1; 8720];
    for (ignore_masks, mode) in [(2, 0), (0, 2), (2, 1), (1, 2), (u32::MAX, 0), (0, 1 << 31)] {
        assert_eq!(images::fresh(&mut image, ignore_masks, mode).status(), 255);
        assert!(image.iter().all(|&byte| byte == 1), "a refused image is unchanged");
    }
    for (ignore_masks, mode) in [(0, 0), (0, 1), (1, 0), (1, 1)] {
        assert_eq!(images::fresh(&mut image, ignore_masks, mode).status(), 0);
        assert_eq!(image[2048..2050], [ignore_masks as u8, mode as u8]);
    }
}

fn no_device(mode: Mode) {
    let mut random = Random::new(9);
    let scene = Scene::of(&mut random, mode);
    let sound = scene.world(&mut random, 16, 256);
    let mut bad: Vec<Vec<u8>> = vec![Vec::new(), vec![0; 8719], vec![0; 8721]];
    let mut changed = |at: usize, byte: u8| {
        let mut image = sound.image.clone();
        image[at] = byte;
        bad.push(image);
    };
    changed(2048, 2);
    changed(2049, 2);
    for at in 2050..2060 {
        changed(at, 1);
    }
    if mode == Mode::Chip {
        // With these priorities it is none in the old mode.
        changed(2049, 0);
    }
    for number in 0..832u16 {
        let at = 2064 + 8 * usize::from(number);
        match Field::from_number(number).filter(|field| field.is_of(mode)) {
            None => changed(at + 7, 1),
            // A priority is taken in the whole of its byte.
            Some(field) if field.bits() < 64 => {
                changed(at + 7 - field.bits().div_ceil(8) as usize, 1);
            }
            Some(_) => {}
        }
    }
    let unsound_time = kounpheray::Time { now: u64::MAX, pace: u64::MAX };
    for image in bad {
        for call in [
            Call::Read { address: 0, size: 0 },
            Call::Write { address: 0, size: 0, value: 0 },
            Call::Inputs { standing: 0, lines: [0; 3] },
            Call::Pending { channel: 99, count: 0 },
            Call::Run(unsound_time),
            Call::Service(unsound_time),
            Call::Acknowledge { ipl: 0 },
            Call::TakeBack,
        ] {
            let mut world = World { image: image.clone(), used: 7, ..sound.clone() };
            let answer = world.checked(call).unwrap_or_else(|told| panic!("{told}"));
            assert_eq!(answer.status(), 255, "{call:?}");
        }
    }
}
