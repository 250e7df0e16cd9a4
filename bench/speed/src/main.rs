//! Measures each call through the crate, beside the same call of the Rust over
//! its flat memory, on this computer: processor time, the two sides in turns.
//!
//! cargo run --release -p speed
//! cargo run --release -p speed -- calls                  their names
//! cargo run --release -p speed -- engine 'read CR' 1000  (or rust)
//!
//! The last form makes one call so many times on one side and tells nothing:
//! for counting instructions (`bench/instructions`).
//!
//! Build this package by itself, as those lines do: together with the tests
//! the Rust would be built to be watched, which slows it down.

mod call;
mod clock;
mod computer;

use call::{Call, Engine, Rust};
use std::process::exit;

/// How often a side takes its turn, and how long a turn is to take.
const TURNS: usize = 31;
const TURN: u64 = 2_000_000;

/// Nanoseconds of one call: of so many turns the median, and the quarters.
struct Figure {
    low: f64,
    median: f64,
    high: f64,
}

impl Figure {
    fn of(mut turns: Vec<f64>) -> Figure {
        turns.sort_by(f64::total_cmp);
        let at = |part: usize| turns[(turns.len() - 1) * part / 4];
        Figure { low: at(1), median: at(2), high: at(3) }
    }

    fn shown(&self) -> String {
        format!("{:8.1} ({:.1} to {:.1})", self.median, self.low, self.high)
    }
}

fn timed(make: &mut dyn FnMut(u64), times: u64) -> f64 {
    let begun = clock::used();
    make(times);
    (clock::used() - begun) as f64 / times as f64
}

/// So many calls that a turn takes about as long as it is to take.
fn times(make: &mut dyn FnMut(u64)) -> u64 {
    let mut times = 16;
    loop {
        let begun = clock::used();
        make(times);
        let used = clock::used() - begun;
        if used > TURN / 8 || times >= 1 << 24 {
            return (times * TURN / used.max(1)).max(1);
        }
        times *= 2;
    }
}

/// Both sides; the Rust's is none where it is not there.
fn measured(call: Call) -> (Figure, Option<Figure>) {
    let mut engine = Engine::new(call);
    let mut engine = |n| engine.make(n);
    let engine_times = times(&mut engine);
    let Some(mut rust) = Rust::new(call) else {
        let turns = (0..TURNS).map(|_| timed(&mut engine, engine_times)).collect();
        return (Figure::of(turns), None);
    };
    let mut rust = |n| rust.make(n);
    let rust_times = times(&mut rust);
    let turns =
        (0..TURNS).map(|_| (timed(&mut engine, engine_times), timed(&mut rust, rust_times)));
    let (ours, theirs) = turns.unzip();
    (Figure::of(ours), Some(Figure::of(theirs)))
}

/// One call so many times on one side; false where that side or call is not
/// there.
fn only(words: &[String]) -> bool {
    let [side, name, times] = words else { return false };
    let Some((_, call)) = call::all().into_iter().find(|(named, _)| named == name) else {
        return false;
    };
    let Ok(times) = times.parse() else { return false };
    match side.as_str() {
        "engine" => Engine::new(call).make(times),
        "rust" => match Rust::new(call) {
            Some(mut rust) => rust.make(times),
            None => return false,
        },
        _ => return false,
    }
    true
}

fn main() {
    let words: Vec<String> = std::env::args().skip(1).collect();
    if words == ["calls"] {
        call::all().iter().for_each(|(name, _)| println!("{name}"));
        return;
    }
    if !words.is_empty() {
        exit(if only(&words) { 0 } else { 1 });
    }
    println!("processor time of one call in ns, median of {TURNS} turns (and quarters), each side");
    println!("in turn; runs move {} bytes; on {}", call::BLOCK, computer::name());
    println!("'chip, 8 x 16': a run in that mode; 8 channels have 16 requests each, of 4 bytes");
    if cfg!(debug_assertions) {
        println!("built without optimisation: the figures say nothing (use --release)");
    }
    println!("{:>16}  {:>28}  {:>28}  {:>6}", "call", "engine", "Rust", "ratio");
    for (name, call) in call::all() {
        let (engine, rust) = measured(call);
        let (shown, ratio) = match &rust {
            Some(rust) => (rust.shown(), format!("{:.2}", engine.median / rust.median)),
            None => ("-".to_string(), "-".to_string()),
        };
        println!("{name:>16}  {:>28}  {shown:>28}  {ratio:>6}", engine.shown());
    }
}
