//! Random rows of calls, the engine beside the Rust.

use beside::compare::JOURNAL;
use beside::random::{seeds, Random};
use beside::row;
use beside::scene::Scene;
use beside::tally::Tally;
use beside::{call::Call, oracle_at_hand};
use std::thread::spawn;

const ROWS: usize = 2_500;
const CALLS: usize = 24;

/// Fewer would be a test that looks at too little.
const WANTED: u64 = 100_000;

/// The rows of one seed.
fn rows_of(seed: u64) -> Tally {
    let mut tally = Tally::default();
    let mut random = Random::new(seed);
    for n in 0..ROWS {
        let scene = Scene::new(&mut random);
        let staging = random.pick(&[0, 3, 64, 4096, 4096, 4096]);
        let world = scene.world(&mut random, staging, JOURNAL);
        let calls: Vec<Call> = (0..CALLS).map(|_| scene.call(&mut random)).collect();
        row::beside(row::the_rust, &format!("seed {seed}, row {n}"), &world, &calls, &mut tally);
    }
    tally
}

#[test]
fn random_rows() {
    if !oracle_at_hand("random rows side by side") {
        return;
    }
    let mut tally = Tally::default();
    // A thread a seed: nothing is shared.
    let running: Vec<_> = seeds().map(|seed| spawn(move || rows_of(seed))).collect();
    let tried = running.len();
    for seed in running {
        tally.add(seed.join().expect("the rows of every seed agree"));
    }
    println!("random rows beside the Rust from {tried} seeds, {tally}");
    if tried >= 6 {
        assert!(tally.total() >= WANTED, "only {} calls could be compared", tally.total());
    }
    for name in ["read", "write", "inputs", "pending", "run", "service", "acknowledge"] {
        assert!(tally.of(name) > 0, "no {name} was compared");
    }
}
