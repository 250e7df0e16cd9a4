//! A short telephone call on the bench: blocks of 160 mu-law samples arrive
//! in a ring, a detector hears something odd, and the bench is asked where
//! the odd sample came from. Then the same call as the chip does it.

mod chip;
mod line;
mod setting;

use kounpheray::{Act, Bench, Field, Mode, Origin, Refusal};
use setting::{BLOCK, BLOCKS, FAULTY, FAX, LATE, RING, RING_BLOCKS, VOICE};

fn main() -> Result<(), Refusal> {
    stepped_back()?;
    chip::play()
}

fn stepped_back() -> Result<(), Refusal> {
    println!("KOUNPHERAY: a call that can be stepped back\n");
    println!("A line card delivers 20 ms of sound at a time: {BLOCK} bytes, one mu-law sample");
    println!(
        "each. A DMA engine's {VOICE} moves every block into a ring of {RING_BLOCKS} blocks in"
    );
    println!("memory, at {RING:08x}; at the ring's end it begins anew. Each thing done to the");
    println!("engine is an act, and it keeps a journal of them, so that whatever it did can");
    println!("be asked about and undone.\n");

    let mut bench = setting::bench(Mode::Old)?;
    let set_up = bench.acts().len();
    println!("1. Setting up took {set_up} register writes, one act each. Now the blocks arrive");
    println!("   (loudness of each ten samples between the bars; # is too loud for speech):\n");
    let mut waiting = Vec::new();
    for block in 0..BLOCKS {
        arrive(&mut bench, block)?;
        waiting.push(block);
        let frames = bench.device().get(Field::Pending(VOICE));
        if block == LATE {
            println!("   block {block} waits: the processor is late; {frames} frame is pending");
            continue;
        }
        if frames > 1 {
            println!("   block {block}: now {frames} frames are pending, and one run moves them");
        }
        run(&mut bench, block)?;
        for block in waiting.drain(..) {
            describe(&bench, block);
        }
    }

    let Some(odd) = line::detector(&bench) else {
        println!("The detector heard nothing; there is nothing to ask.");
        return Ok(());
    };
    println!("\n2. The detector stops here: the sample at {:08x} has magnitude {},", odd.0, odd.1);
    println!("   far above the speech around it. Who put it there?\n");
    let Some(origin) = bench.origin(odd.0) else {
        println!("   No standing act did.");
        return Ok(());
    };
    explain(&origin, set_up);

    println!("\n3. Stepping back to before that transfer:\n");
    let undone = step_back_before(&mut bench, &origin)?;
    println!("   the byte at {:08x} is now {}.", odd.0, sample(&bench, odd.0));
    match bench.origin(odd.0) {
        None => println!("   No standing act has stored there."),
        Some(before) => println!(
            "   It comes from act {} by {}, one round of the ring earlier.",
            before.stored.act, before.stored.channel
        ),
    }

    println!("\n4. And forward again, the same acts in the same order:\n");
    for act in undone.into_iter().rev() {
        bench.make(act)?;
        println!("   {}", told(&act));
    }
    println!("\n   the byte at {:08x} is {} once more.", odd.0, sample(&bench, odd.0));
    assert_eq!(bench.origin(odd.0), Some(origin), "stepping back and forward is exact");

    println!("\nSo the fault is {FAX}'s: its descriptor writes into the voice's ring.");
    println!(
        "The journal holds {} acts in {} bytes; all of it can be taken back.",
        bench.acts().len(),
        bench.used()
    );
    Ok(())
}

/// One block from the line: the samples come in, the channels have requests.
fn arrive(bench: &mut Bench, block: usize) -> Result<(), Refusal> {
    line::deliver(bench, block);
    bench.frames_arrived(VOICE, 1)?;
    if block == FAULTY {
        bench.frames_arrived(FAX, 1)?;
    }
    Ok(())
}

/// The processor's turn: whatever waits is moved, interrupts are taken.
fn run(bench: &mut Bench, block: usize) -> Result<(), Refusal> {
    bench.run(setting::time(block))?;
    while bench.acknowledge(0)?.is_some() {
        setting::clear_interrupts(bench)?;
    }
    Ok(())
}

fn describe(bench: &Bench, block: usize) {
    let place = block % RING_BLOCKS;
    let at = RING + (place * BLOCK) as u32;
    let levels: String = line::loudness(bench.bytes(at, BLOCK).unwrap_or_default());
    let majors = bench.device().get(Field::Majors(VOICE));
    println!(
        "   block {block} to {at:08x} (place {place})  |{levels}|  rounds of the ring: {majors}"
    );
}

fn explain(origin: &Origin, set_up: usize) {
    let stored = &origin.stored;
    let tcd = &origin.descriptor;
    println!(
        "   act       {} ({} after the set-up): {}",
        stored.act,
        stored.act - set_up,
        told(&origin.act)
    );
    println!("   channel   {}", stored.channel);
    println!(
        "   store     record {} of that act: at {:08x}, where {:0digits$x} stood",
        stored.record,
        stored.store.address,
        stored.store.old,
        digits = 2 * usize::from(stored.store.width),
    );
    println!("   descriptor as that pass began:");
    println!("             from {:08x}, to {:08x}, {} bytes", tcd.saddr, tcd.daddr, tcd.nbytes);
    if stored.channel == FAX {
        println!("\n   The voice comes by {VOICE}; {FAX} has no business in its ring.");
    }
}

/// Takes acts back until the one asked about is gone.
fn step_back_before(bench: &mut Bench, origin: &Origin) -> Result<Vec<Act>, Refusal> {
    let mut undone = Vec::new();
    while bench.acts().len() > origin.stored.act {
        let act = bench.step_back()?;
        println!("   undone: {}", told(&act));
        undone.push(act);
    }
    println!("\n   {} acts stand, and block {FAULTY} is not in the ring yet:", bench.acts().len());
    Ok(undone)
}

fn sample(bench: &Bench, address: u32) -> String {
    match bench.bytes(address, 1) {
        Some(byte) => format!("{:02x} (magnitude {})", byte[0], line::linear(byte[0]).abs()),
        None => "outside the window".to_string(),
    }
}

fn told(act: &Act) -> String {
    match act {
        Act::Write { value, size, .. } => format!("a register write of {size} bytes, {value:x}"),
        Act::Inputs { .. } => "the inputs, looked at anew".to_string(),
        Act::Pending { channel, count } => format!("{count} more pending for {channel}"),
        Act::Run(time) => format!("a run at {} ms", time.now),
        Act::Service(time) => format!("a service at {} ms", time.now),
        Act::Acknowledge { ipl } => format!("an acknowledge above level {ipl}"),
        other => format!("{other:?}"),
    }
}
