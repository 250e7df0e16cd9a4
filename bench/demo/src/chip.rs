//! The same call on a device that serves its channels as the chip does it.

use crate::setting::{BLOCKS, FAULTY, FAX, LATE, VOICE};
use crate::{arrive, line, run, setting};
use kounpheray::{Act, Bench, Channel, DmaRegister, Mode, Record, Refusal, TcdField};

/// Above all that a fresh device has for these channels.
const RAISED: u32 = 60;

pub fn play() -> Result<(), Refusal> {
    println!("\n\nTHE SAME CALL, as the chip does it\n");
    println!("On this device each turn of a run moves one block, for one request, and then the");
    println!("channels are looked at afresh: the one with the highest priority comes next. A");
    println!("fresh device has each channel's own number there.\n");

    println!("5. The blocks arrive as before. Whose turns each run had:\n");
    let mut bench = setting::bench(Mode::Chip)?;
    for block in 0..BLOCKS {
        arrive(&mut bench, block)?;
        if block != LATE {
            run(&mut bench, block)?;
            println!("   block {block}: {}", turns(&bench));
        }
    }
    if let Some((at, _)) = line::detector(&bench) {
        println!("\n   The detector hears {at:08x}; there is nothing to look for.");
        return Ok(());
    }
    println!("\n   Where two requests waited the run had two turns. And the detector hears");
    println!("   nothing: with block {FAULTY} {FAX} came first, and the voice's block lies over");
    println!("   its bytes. The fault is there, and hidden.");

    println!("\n6. Back to before that run, and on with priority {RAISED} for {VOICE}:\n");
    while !matches!(bench.acts().last(), Some(Act::Run(time)) if *time == setting::time(FAULTY)) {
        bench.step_back()?;
    }
    bench.step_back()?;
    bench.write(DmaRegister::Priority(VOICE), RAISED)?;
    run(&mut bench, FAULTY)?;
    println!("   block {FAULTY}: {}", turns(&bench));
    match line::detector(&bench) {
        None => println!("\n   The detector hears nothing."),
        Some((at, loud)) => println!("\n   The detector hears {at:08x} again, magnitude {loud}."),
    }
    Ok(())
}

/// The channels that the last run served, one for each turn.
fn turns(bench: &Bench) -> String {
    let Some(last) = bench.acts().iter().rposition(|act| matches!(act, Act::Run(_))) else {
        return String::new();
    };
    let journal = bench.journal();
    let records = journal.group(last).map_or(&[][..], |group| group.records());
    let channels: Vec<String> = records.iter().filter_map(pass).map(|ch| ch.to_string()).collect();
    channels.join(", ")
}

/// The channel of a pass, at its store of `saddr` alone.
fn pass(record: &Record) -> Option<Channel> {
    match record {
        Record::Table(store) if store.fields().eq([TcdField::Saddr]) => Some(store.channel()),
        _ => None,
    }
}
