//! Random rows of calls in both modes, the engine beside the model: all that a
//! call answers and leaves is compared.

use beside::call::Call;
use beside::lab::{fresh, memory, BASE};
use beside::random::{seeds, Random};
use beside::row;
use beside::scene::Scene;
use beside::tally::Tally;
use beside::world::World;
use kounpheray::Mode;
use std::thread::spawn;

const ROWS: usize = 500;
const CALLS: usize = 16;
const CROWDS: usize = 150;

/// The rows of one seed in one mode.
fn rows_of(seed: u64, mode: Mode) -> Tally {
    let mut tally = Tally::default();
    let mut random = Random::new(6000 + seed);
    for n in 0..ROWS {
        let scene = Scene::of(&mut random, mode);
        let staging = random.pick(&[0, 3, 64, 4096, 4096, 4096]);
        let journal = random.pick(&[200, 1 << 12, 1 << 14, 1 << 15]);
        let world = scene.world(&mut random, staging, journal);
        let calls: Vec<Call> = (0..CALLS).map(|_| scene.call(&mut random)).collect();
        let name = format!("{mode:?}, seed {seed}, row {n}");
        row::beside(row::the_model, &name, &world, &calls, &mut tally);
    }
    tally
}

/// Rows in which many channels have work at once, some with room for all turns.
fn crowds_of(seed: u64) -> Tally {
    let mut tally = Tally::default();
    let mut random = Random::new(7000 + seed);
    for n in 0..CROWDS {
        let scene = Scene::crowd(&mut random);
        let staging = random.pick(&[2, 64, 64, 64]);
        let journal = random.pick(&[1 << 11, 1 << 14, 1 << 15, 1 << 15, 1 << 21]);
        let world = scene.world(&mut random, staging, journal);
        let call = |_| match random.below(8) {
            0 => scene.call(&mut random),
            1..=3 => scene.work(&mut random),
            _ => scene.run_or_service(&mut random),
        };
        let calls: Vec<Call> = (0..10).map(call).collect();
        let name = format!("a crowd, seed {seed}, row {n}");
        row::beside(row::the_model, &name, &world, &calls, &mut tally);
    }
    tally
}

#[test]
fn random_rows() {
    for mode in Mode::ALL {
        let mut tally = Tally::default();
        let running: Vec<_> = seeds().map(|seed| spawn(move || rows_of(seed, mode))).collect();
        for seed in running {
            tally.add(seed.join().expect("the rows of every seed agree"));
        }
        println!("random rows beside the model, {mode:?}, {tally}");
        for what in [
            "read",
            "write",
            "inputs",
            "pending",
            "acknowledge",
            "take back",
            "run, no pass",
            "run, one pass",
            "run, some passes",
            "run, refusal 9",
            "run, refusal 10",
            "run, refusal 11",
            "service, some passes",
        ] {
            assert!(tally.of(what) > 0, "no {what} was compared");
        }
    }
}

#[test]
fn random_crowds() {
    let mut tally = Tally::default();
    let running: Vec<_> = seeds().map(|seed| spawn(move || crowds_of(seed))).collect();
    for seed in running {
        tally.add(seed.join().expect("the rows of every seed agree"));
    }
    println!("random crowds beside the model, {tally}");
    for what in ["run, some passes", "run, many passes", "run, 4,096 passes"] {
        assert!(tally.of(what) > 0, "no {what} was compared");
    }
    assert_eq!(tally.of("run, more than 4,096 passes"), 0);
}

/// Every offset of the DMA's own registers and every size, read and written.
#[test]
fn every_dma_register() {
    let mut tally = Tally::default();
    let mut random = Random::new(8);
    for mode in Mode::ALL {
        let mut world = World {
            image: fresh(mode).image(),
            base: BASE,
            window: memory(16),
            staging: Vec::new(),
            journal: vec![0xA5; 16 * 80],
            used: 0,
        };
        for offset in (0..0x180).chain(0xFF0..0x1010).chain(0x17F0..0x1810) {
            for size in [1, 2, 4] {
                let (address, value) = (0xFC04_4000 + offset, random.word() as u32);
                for call in [
                    Call::Read { address, size },
                    Call::Write { address, size, value },
                    Call::Read { address, size },
                ] {
                    row::as_modelled(&mut world, call, &mut tally)
                        .unwrap_or_else(|told| panic!("{mode:?}: {told}"));
                }
                world.used = 0;
            }
        }
    }
    println!("every DMA register beside the model, {tally}");
}
