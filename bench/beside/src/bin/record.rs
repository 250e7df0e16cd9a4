//! Writes the list of the Rust's answers: to the file named, or to standard
//! output.
//!
//! cargo run --release -p beside --bin record -- beside/lists/answers.txt

use beside::call::Call;
use beside::random::Random;
use beside::recorded::{call_rows, changes, lines, written, Answered, Begin, Row, FORMAT, JOURNAL};
use beside::scene::Scene;
use kounpheray::{Device, Mode};
use oracle::{Oracle, Ran, IMAGE};
use std::process::exit;

const HEAD: &str = "\
# Answers of the Rust that was ported (docs/src over a flat memory), recorded
# by `cargo run --release -p beside --bin record`; a fixed seed, so that the
# same sources give the same file.
";

const SEED: u64 = 2026;
const RUNS: usize = 220;
const SEQUENCES: usize = 80;
const RINGING: usize = 60;
const CALLS: usize = 6;

/// The most stores of a recorded run, so that its records fit the journal.
const STORES: usize = 256;

fn main() {
    if !oracle::AVAILABLE {
        eprintln!("record: the Rust sources were not there when this was built (KOUNPHERAY_RUST)");
        exit(1);
    }
    let mut random = Random::new(SEED);
    let mut text = format!("{HEAD}{FORMAT}");
    for number in 0..RUNS + SEQUENCES + RINGING {
        let rows = loop {
            if let Some(rows) = case(&mut random, number) {
                break rows;
            }
        };
        text += &lines(&rows);
    }
    written(&text);
}

/// A case, unless it leaves the claimed domain or says too little.
fn case(random: &mut Random, number: usize) -> Option<Vec<Row>> {
    let begin = Begin {
        mode: Mode::Old,
        ignore_masks: random.once_in(8),
        number: number as u16,
        base: random.pick(&[0x8000_0000, 0x4000_0010, 0, 0xFFFF_FF80]),
        length: random.pick(&[48, 64, 96, 128]),
        first: random.word() as u8,
        step: random.word() as u8 | 1,
        filled: 0xEE,
    };
    let rings = number >= RUNS + SEQUENCES;
    let made_so = if rings { Scene::ringing } else { Scene::small };
    let scene = made_so(random, begin.device(), begin.base, begin.window());
    let mut image = scene.device.image();
    Oracle::settle(&mut image);
    let mut oracle = Oracle::load(&image, begin.base, &scene.window).ok()?;
    let mut rows = vec![begin.row()];
    let fresh = begin.device();
    rows.extend(changes(false, (&fresh.image(), &begin.window()), (&image, &scene.window)));
    let mut state = (image, scene.window.clone());
    if number < RUNS {
        let call = scene.run_or_service(random);
        rows.extend(made(&mut oracle, call, may_leave(&scene), &mut state)?);
        // Most cases should say what a run does, not that it does nothing.
        let told = rows.iter().filter(|row| row[0] >= 0x20).count();
        return (told > 2 || random.once_in(12)).then_some(rows);
    }
    if rings {
        for ipl in [7, random.below(8) as u8, 0, 0] {
            rows.extend(made(&mut oracle, Call::Acknowledge { ipl }, false, &mut state)?);
        }
        return Some(rows);
    }
    let mut made_calls = 0;
    while made_calls < CALLS {
        let call = scene.call(random);
        if call != Call::TakeBack {
            rows.extend(made(&mut oracle, call, false, &mut state)?);
            made_calls += 1;
        }
    }
    (rows.len() < 36).then_some(rows)
}

/// Whether 9 is the only refusal that a run can meet: with equal sizes and no
/// descriptors to be fetched, no pass asks for staging.
fn may_leave(scene: &Scene) -> bool {
    let equal = |tcd: kounpheray::Tcd| tcd.source_size() == tcd.destination_size();
    scene.nodes.is_empty() && scene.channels.iter().all(|one| equal(scene.device.descriptor(*one)))
}

/// The rows of one call, made by the Rust.
fn made(
    oracle: &mut Oracle,
    call: Call,
    may_leave: bool,
    state: &mut (Vec<u8>, Vec<u8>),
) -> Option<Vec<Row>> {
    if call.early(0, 1, JOURNAL, 0).or_else(|| call.barred(&state.0)).is_some() {
        return None;
    }
    let mut answered = Answered::default();
    match call {
        Call::Read { address, size } => match oracle.read(address, size) {
            Some(value) => answered.value = value,
            None => answered.status = 3,
        },
        Call::Write { address, size, value } => {
            if !oracle.write(address, size, value) {
                answered.status = 3;
            }
        }
        Call::Inputs { standing, lines } => oracle.inputs(standing, lines).ok()?,
        Call::Pending { channel, count } => oracle.pending(channel as usize, count).ok()?,
        Call::Run(time) => answered.status = ran(oracle.run(time.now, time.pace))?,
        Call::Service(time) => answered.status = ran(oracle.service(time.now, time.pace))?,
        Call::Acknowledge { ipl } => {
            (answered.level, answered.vector) = oracle.acknowledge(ipl).unwrap_or_default();
        }
        Call::TakeBack => return None,
    }
    if call.moves() && oracle.stores().len() > STORES {
        return None;
    }
    let mut rows = call_rows(call, answered);
    if answered.status == 9 {
        if !may_leave {
            return None;
        }
        // The Rust's state is of no use; a refusal changes nothing.
        oracle.reload(&state.0, oracle.base(), &state.1).ok()?;
        return Some(rows);
    }
    let mut image = vec![0; IMAGE];
    oracle.store(&mut image);
    Device::from_image(&image)?;
    let window = oracle.window().to_vec();
    rows.extend(changes(true, (&state.0, &state.1), (&image, &window)));
    *state = (image, window);
    Some(rows)
}

/// The status of a run; none where the Rust was given up.
fn ran(ran: Ran) -> Option<u8> {
    match ran {
        Ran::Whole => Some(0),
        Ran::LeftWindow => Some(9),
        Ran::GivenUp => None,
    }
}
