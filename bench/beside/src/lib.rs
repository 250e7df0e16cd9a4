//! What the tests share: random devices and calls, a world to make calls in
//! that is checked after each, the comparison with the Rust and with the model,
//! and counts.

pub mod call;
pub mod capture;
pub mod compare;
pub mod difference;
pub mod document;
pub mod lab;
pub mod random;
pub mod recorded;
pub mod row;
pub mod scene;
pub mod tally;
pub mod world;

/// Whether the Rust can be asked; says so where it can't.
pub fn oracle_at_hand(what: &str) -> bool {
    if !oracle::AVAILABLE {
        println!("skipped, {what}: the Rust sources were not there (KOUNPHERAY_RUST)");
    }
    oracle::AVAILABLE
}

/// The emulator that programs for x86-64 are run with, and its arguments, if
/// `KOUNPHERAY_RUNNER` names one.
pub fn runner() -> Option<(String, Vec<String>)> {
    let named = std::env::var("KOUNPHERAY_RUNNER").ok()?;
    let mut words = named.split_whitespace().map(str::to_string);
    Some((words.next()?, words.collect()))
}
