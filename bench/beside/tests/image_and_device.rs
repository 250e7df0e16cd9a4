//! Random rows of calls on an image and on a device in memory, in both modes:
//! after each call both have answered the same and left the same behind, to the
//! last byte, but for the bits of a priority that mean nothing.

use beside::random::{seeds, Random};
use beside::scene::Scene;
use beside::world::{seen, World};
use kounpheray::entries;
use kounpheray::{Device, Mode, IMAGE};
use std::collections::BTreeMap;
use std::thread::spawn;

const ROWS: usize = 400;
const CALLS: usize = 32;

/// What the calls were answered with, by name and status.
type Answers = BTreeMap<(&'static str, u8), u64>;

/// Lengths, places and bytes that the tests of the arguments are there for.
fn amiss(random: &mut Random, world: &mut World) {
    match random.below(7) {
        0 if world.used > 0 => {
            let at = (world.used - 1 - random.below(16)) as usize;
            world.journal[at] ^= 1 << random.below(8);
        }
        1 => world.used += random.pick(&[1, 8, 15]),
        2 => world.used = world.journal.len() as u64 + random.pick(&[1, 16, 1 << 40]),
        3 => world.used = u64::MAX - random.below(32),
        4 => world.window.clear(),
        5 => world.base = u32::MAX - random.below(world.window.len() as u64) as u32,
        _ => world.journal.truncate(world.used as usize + 16),
    }
}

fn rows_of(seed: u64) -> Answers {
    let mut answers = Answers::new();
    let mut random = Random::new(seed);
    for row in 0..ROWS {
        let scene = Scene::of(&mut random, Mode::ALL[row % 2]);
        let staging = random.pick(&[0, 3, 64, 4096]);
        let mut world = scene.world(&mut random, staging, 1 << 14);
        let mut held = world.around(Device::from_image(&world.image).expect("it is a device"));
        for n in 0..CALLS {
            let call = scene.call(&mut random);
            let before = random.once_in(8).then(|| (world.clone(), held.clone()));
            if before.is_some() {
                amiss(&mut random, &mut world);
                held = world.around(held.device);
            }
            let answer = world.call(call);
            let told = format!("seed {seed}, row {row}, call {n}: {call:x?}");
            assert_eq!(held.call(call), answer, "{told}: other answers");
            let laid_down = World { image: seen(&world.image), ..world.clone() };
            assert!(held.laid_down() == laid_down, "{told}: {answer:?}, and left another");
            *answers.entry((call.name(), answer.status())).or_default() += 1;
            if let Some(before) = before {
                (world, held) = before;
            }
        }
    }
    answers
}

#[test]
fn random_rows() {
    let mut answers = Answers::new();
    let running: Vec<_> = seeds().map(|seed| spawn(move || rows_of(seed))).collect();
    for seed in running {
        for (what, count) in seed.join().expect("the rows of every seed agree") {
            *answers.entry(what).or_default() += count;
        }
    }
    println!("an image and a device in memory: {} calls alike", answers.values().sum::<u64>());
    for ((name, status), count) in &answers {
        println!("  {count:>9}  {name}, status {status}");
    }
    let names =
        ["read", "write", "inputs", "pending", "run", "service", "acknowledge", "take back"];
    for name in names {
        assert!(answers.contains_key(&(name, 0)), "no {name} was accepted");
    }
    for status in 1..=14 {
        let seen = answers.keys().any(|&(_, number)| number == status);
        assert!(seen, "nothing was refused with {status}");
    }
}

/// What is no image is not loaded, and the device stays; a range of another
/// length is not saved to.
#[test]
fn neither_loaded_nor_saved() {
    let mut device = Device::ignoring_masks();
    let image = device.image();
    for broken in 0..3 {
        let mut bytes = image.clone();
        match broken {
            0 => bytes[2048] = 2,
            1 => bytes[2064 + 8 * 10] = 1,
            _ => bytes.truncate(IMAGE - 1),
        }
        assert_eq!(entries::load(&mut device, &bytes).status(), 255);
        assert_eq!(device, Device::ignoring_masks());
        assert_eq!(Device::from_image(&bytes), None);
    }
    let mut short = vec![7; IMAGE - 1];
    assert_eq!(entries::save(&device, &mut short).status(), 255);
    assert!(short.iter().all(|&byte| byte == 7));
}
