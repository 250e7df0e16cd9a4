//! A row of calls from one starting world, and the smallest one that still
//! shows a difference.

use crate::call::Call;
use crate::compare::Beside;
use crate::difference;
use crate::tally::Tally;
use crate::world::World;
use kounpheray::entries::Answer;
use kounpheray::{IMAGE, RECORD};

/// How much of the journal may be used before a new one is begun.
const FULL: usize = 1 << 15;

/// Makes calls on the engine and on another side and compares. None where the
/// other side can't begin with this start.
pub type Side = fn(&World, &[Call]) -> Option<(Tally, Result<(), String>)>;

/// The Rust that was ported.
pub fn the_rust(start: &World, calls: &[Call]) -> Option<(Tally, Result<(), String>)> {
    let mut pair = Beside::new(start.clone()).ok()?;
    for (n, call) in calls.iter().enumerate() {
        if let Err(told) = pair.call(*call) {
            return Some((pair.tally, Err(format!("call {n}: {told}"))));
        }
    }
    Some((pair.tally, Ok(())))
}

/// The model: everything is compared, to the last byte of the journal.
pub fn the_model(start: &World, calls: &[Call]) -> Option<(Tally, Result<(), String>)> {
    let mut tally = Tally::default();
    let mut world = start.clone();
    for (n, call) in calls.iter().enumerate() {
        if let Err(told) = as_modelled(&mut world, *call, &mut tally) {
            return Some((tally, Err(format!("call {n}: {told}"))));
        }
        if world.used as usize > FULL {
            world.used = 0;
        }
    }
    Some((tally, Ok(())))
}

/// Makes a call on the engine and holds it to the model.
pub fn as_modelled(world: &mut World, call: Call, tally: &mut Tally) -> Result<Answer, String> {
    let mut model = world.clone();
    let first = world.used as usize;
    let answer = world.checked(call)?;
    let expected = model.modelled(call);
    let other = if answer != expected {
        Some(format!("answers {:016x}, expected {:016x}", answer.0, expected.0))
    } else {
        difference::of_images(&world.image, &model.image)
            .or_else(|| difference::of_windows(world.base, &world.window, &model.window))
            .or_else(|| other_byte("journal", &world.journal, &model.journal))
            .or_else(|| other_byte("staging", &world.staging, &model.staging))
    };
    match other {
        Some(told) => Err(format!("{call:x?}:\n{told}")),
        None => {
            tally.compared(match answer.status() {
                0 if call.moves() => {
                    let group = &world.journal[first..world.used as usize];
                    format!("{}, {}", call.name(), passes(group))
                }
                0 => call.name().to_string(),
                number => format!("{}, refusal {number}", call.name()),
            });
            Ok(answer)
        }
    }
}

/// How many passes a run or service made, by its group: each that answers yes
/// stores its `saddr` once, and nothing else does so in words.
fn passes(group: &[u8]) -> &'static str {
    let saddr = |row: &&[u8]| row[2..4] == [1, 4] && row[7] % 32 == 0;
    match group.chunks(RECORD).filter(saddr).count() {
        0 => "no pass",
        1 => "one pass",
        2..=63 => "some passes",
        64..=4095 => "many passes",
        4096 => "4,096 passes",
        _ => "more than 4,096 passes",
    }
}

/// Names the first byte in which two ranges differ.
fn other_byte(what: &str, engine: &[u8], expected: &[u8]) -> Option<String> {
    let at = engine.iter().zip(expected).position(|(one, other)| one != other)?;
    Some(format!("  byte {at} of the {what}: {:02x}, expected {:02x}", engine[at], expected[at]))
}

/// Makes the calls beside another side and counts them.
///
/// # Panics
/// At a difference, with the smallest start and row that were found for it.
pub fn beside(other: Side, name: &str, start: &World, calls: &[Call], tally: &mut Tally) {
    match other(start, calls) {
        None => tally.apart("rows whose start lies outside the claimed domain"),
        Some((made, Ok(()))) => tally.add(made),
        Some((_, Err(_))) => {
            let (start, calls) = smallest(other, start.clone(), calls.to_vec());
            let told = other(&start, &calls).and_then(|(_, end)| end.err()).unwrap_or_default();
            panic!("{name}: the engine differs\n{told}\n{}", shown(&start, &calls));
        }
    }
}

fn differs(other: Side, start: &World, calls: &[Call]) -> bool {
    matches!(other(start, calls), Some((_, Err(_))))
}

/// Drops calls and clears parts of the device as long as the difference stays.
fn smallest(other: Side, mut start: World, mut calls: Vec<Call>) -> (World, Vec<Call>) {
    let mut at = calls.len();
    while at > 0 {
        at -= 1;
        let mut fewer = calls.clone();
        fewer.remove(at);
        if differs(other, &start, &fewer) {
            calls = fewer;
        }
    }
    let whole_descriptors = (0..64).map(|channel| 32 * channel..32 * channel + 32);
    let halves = (0..1024).map(|half| 2 * half..2 * half + 2);
    let fields = (0..832).map(|field| 2064 + 8 * field..2064 + 8 * field + 8);
    let parts: Vec<_> = whole_descriptors.chain(halves).chain(fields).collect();
    for part in parts {
        if part.end <= IMAGE && start.image[part.clone()].iter().any(|&byte| byte != 0) {
            let mut less = start.clone();
            less.image[part].fill(0);
            if differs(other, &less, &calls) {
                start = less;
            }
        }
    }
    (start, calls)
}

fn shown(start: &World, calls: &[Call]) -> String {
    let mut told = format!(
        "base {:08x}, window of {} bytes: {}\n",
        start.base,
        start.window.len(),
        difference::hex(&start.window)
    );
    if let Some(device) = kounpheray::Device::from_image(&start.image) {
        told += &format!("{device:#x?}\n");
    }
    for call in calls {
        told += &format!("{call:x?}\n");
    }
    told
}
