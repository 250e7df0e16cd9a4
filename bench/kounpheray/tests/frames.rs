//! What a line driver reports, and what the call leaves where it is refused.

use kounpheray::{csr, Tcd, Time};
use kounpheray::{Act, Bench, Channel, Controller, DmaRegister, Field, Refusal, Select, Size};
use kounpheray::{Device, Mode};

const CHANNEL: Channel = Channel::new(7);
const AT_ONCE: Time = Time { now: 0, pace: 0 };

/// Frames of two bytes from the window's first half to its second, with an
/// interrupt at the fourth.
fn bench(journal: usize) -> Bench {
    bench_of(Mode::Old, journal)
}

fn bench_of(mode: Mode, journal: usize) -> Bench {
    let device = Device::builder().mode(mode).build();
    let bench = Bench::new(0x4000_0000, (0..16).collect()).with_device(device);
    let mut bench = bench.with_journal(journal);
    let tcd = Tcd {
        saddr: 0x4000_0000,
        attr: Tcd::attr(Size::Two, 0, Size::Two, 0),
        soff: 2,
        nbytes: 2,
        daddr: 0x4000_0008,
        citer: 4,
        doff: 2,
        biter: 4,
        csr: csr::INTMAJOR,
        ..Tcd::default()
    };
    bench.write_descriptor(CHANNEL, &tcd).expect("the descriptor is written");
    let erq = Select::Channel(CHANNEL).value();
    bench.write(DmaRegister::SetErq, erq).expect("its requests count");
    bench
}

fn pending(bench: &Bench) -> u64 {
    bench.device().get(Field::Pending(CHANNEL))
}

#[test]
fn frames_are_counted_and_moved() -> Result<(), Refusal> {
    for mode in Mode::ALL {
        let mut bench = bench_of(mode, Bench::JOURNAL);
        bench.frames_arrived(CHANNEL, 1)?;
        bench.frames_arrived(CHANNEL, 2)?;
        assert_eq!(pending(&bench), 3);
        bench.run(AT_ONCE)?;
        assert_eq!(pending(&bench), 0, "{mode:?}");
        assert_eq!(bench.window()[8..], [0, 1, 2, 3, 4, 5, 14, 15], "{mode:?}");
    }
    Ok(())
}

/// In the chip's mode a run asks for no KICK bit; a service does.
#[test]
fn pending_alone_moves_as_the_chip_does_it() -> Result<(), Refusal> {
    let mut bench = bench_of(Mode::Chip, Bench::JOURNAL);
    bench.pending(CHANNEL, 2)?;
    bench.service(AT_ONCE)?;
    assert_eq!(pending(&bench), 2);
    bench.run(AT_ONCE)?;
    assert_eq!(pending(&bench), 0);
    assert_eq!(bench.window()[8..], [0, 1, 2, 3, 12, 13, 14, 15]);
    Ok(())
}

/// A run after pending alone does nothing: no KICK bit is set.
#[test]
fn pending_alone_moves_nothing() -> Result<(), Refusal> {
    let mut bench = bench(Bench::JOURNAL);
    bench.pending(CHANNEL, 2)?;
    bench.run(AT_ONCE)?;
    assert_eq!(pending(&bench), 2);
    assert_eq!(bench.window()[8..], [8, 9, 10, 11, 12, 13, 14, 15]);
    let (standing, lines) = bench.device().inputs();
    bench.inputs(standing, lines)?;
    bench.run(AT_ONCE)?;
    assert_eq!(bench.window()[8..], [0, 1, 2, 3, 12, 13, 14, 15]);
    Ok(())
}

/// The masks stay as they were last given, and the DMA's own lines are its own.
#[test]
fn masks_stay() -> Result<(), Refusal> {
    let mut bench = bench(Bench::JOURNAL);
    let standing = Channel::new(40).bit();
    bench.inputs(standing, [1, 2, 1 << 63])?;
    bench.frames_arrived(CHANNEL, 4)?;
    let masks = |bench: &Bench| {
        let lines = Controller::ALL.map(|c| bench.device().get(Field::Lines(c)));
        (bench.device().get(Field::Standing), lines)
    };
    assert_eq!(masks(&bench), (standing, [1, 2, 1 << 63]));
    bench.run(AT_ONCE)?;
    let driven = 1 << (8 + CHANNEL.number());
    assert_eq!(masks(&bench), (standing, [1 | driven, 2, 1 << 63]), "its interrupt is on a line");
    bench.frames_arrived(CHANNEL, 1)?;
    assert_eq!(masks(&bench), (standing, [1 | driven, 2, 1 << 63]));
    bench.write(DmaRegister::ClearInt, Select::Channel(CHANNEL).value())?;
    assert_eq!(masks(&bench), (standing, [1, 2, 1 << 63]), "the line falls with the interrupt");

    // Stepping back over them brings the masks back too.
    bench.inputs(0, [0; 3])?;
    assert!(matches!(bench.step_back()?, Act::Inputs { .. }));
    bench.frames_arrived(CHANNEL, 1)?;
    assert_eq!(masks(&bench), (standing, [1, 2, 1 << 63]));
    Ok(())
}

/// Both acts or none.
#[test]
fn refused_whole() -> Result<(), Refusal> {
    let set_up = bench(Bench::JOURNAL);
    let used = set_up.used();
    // Two records for the count, two for the inputs: the count, KICK, two ends.
    for room in 0..=4 {
        let mut bench = bench(used + 16 * room);
        let before = bench.clone();
        let made = bench.frames_arrived(CHANNEL, 1);
        if room == 4 {
            assert_eq!(made, Ok(()));
            assert_eq!(bench.acts().len(), before.acts().len() + 2);
            continue;
        }
        assert_eq!(made, Err(Refusal::JournalFull), "room for {room} records");
        assert_eq!(bench.device(), before.device());
        assert_eq!(bench.acts(), before.acts());
        assert_eq!(bench.journal_bytes(), before.journal_bytes());
    }

    let mut bench = set_up;
    bench.frames_arrived(CHANNEL, u32::MAX)?;
    let before = bench.clone();
    assert_eq!(bench.frames_arrived(CHANNEL, 1), Err(Refusal::PendingCount));
    assert_eq!(bench.device(), before.device());
    assert_eq!(bench.acts(), before.acts());
    assert_eq!(bench.frames_arrived(CHANNEL, 0), Ok(()));
    assert_eq!(pending(&bench), u64::from(u32::MAX));
    Ok(())
}
