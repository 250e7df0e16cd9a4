//! Document 01's marked examples and its listing, through the entries.

use beside::lab::{one_request, put, AT_ONCE, BASE};
use kounpheray::{
    csr, Bench, Channel, Controller, Device, Field, Record, Refusal, Size, Source, Tcd, Time,
    CR_EMLM,
};

const CHANNEL: Channel = Channel::new(0);

/// One pass of a move of single bytes, whose source steps by `soff`.
fn stepped(saddr: u32, soff: i16, modulo: u16, base: u32) -> u32 {
    let tcd = Tcd {
        saddr,
        attr: modulo << 11,
        soff,
        nbytes: 1,
        daddr: saddr,
        citer: 2,
        biter: 2,
        ..Tcd::default()
    };
    after_a_pass(&tcd, 0, base).0.saddr
}

/// The descriptor after one pass, and how often each width was stored.
fn after_a_pass(tcd: &Tcd, cr: u32, base: u32) -> (Tcd, Vec<u8>) {
    let mut device = one_request(CHANNEL, tcd);
    put(&mut device, Field::Cr, u64::from(cr));
    let mut bench =
        Bench::new(base, vec![7; 16]).with_device(device).with_journal(1 << 26).with_staging(64);
    bench.run(AT_ONCE).expect("nothing leaves the window");
    let journal = bench.journal();
    let group = journal.group(0).expect("one act");
    let widths = group.stores().map(|stored| stored.store.width).collect();
    (bench.descriptor(CHANNEL), widths)
}

#[test]
fn p1_to_p3_addresses() {
    assert_eq!(stepped(0x8000_0FFE, 4, 4, 0x8000_0FF8), 0x8000_0FF2);
    assert_eq!(stepped(0xFFFF_FFFE, 4, 0, 0xFFFF_FFF0), 2);
    assert_eq!(stepped(0xFFFF_FFFF, 1, 31, 0xFFFF_FFF0), 0x8000_0000);
}

fn counted(citer: u16) -> Device {
    let tcd = Tcd { saddr: BASE, nbytes: 1, daddr: BASE, citer, biter: 0x8209, ..Tcd::default() };
    let mut bench = Bench::new(BASE, vec![0; 16]).with_device(one_request(CHANNEL, &tcd));
    bench.run(AT_ONCE).expect("nothing leaves the window");
    bench.device().clone()
}

#[test]
fn p4_and_p5_counts() {
    let device = counted(0x8205);
    assert_eq!(device.descriptor(CHANNEL).citer, 0x8204);
    assert_eq!(device.descriptor(Channel::new(1)).csr, csr::START, "a link to channel 1");
    let device = counted(0x8201);
    assert_eq!(device.descriptor(CHANNEL).citer, 0x8209, "a major end begins anew");
    assert_eq!(device.get(Field::Majors(CHANNEL)), 1);
    assert_eq!(device.descriptor(Channel::new(1)).csr, 0, "no minor link at new count 0");
}

#[test]
fn p6_minor_offset() {
    let tcd = Tcd {
        saddr: BASE + 4,
        attr: Tcd::attr(Size::Four, 0, Size::Four, 0),
        nbytes: 0xBFFF_FC08,
        daddr: BASE,
        citer: 2,
        biter: 2,
        ..Tcd::default()
    };
    let (after, widths) = after_a_pass(&tcd, CR_EMLM, BASE);
    assert_eq!((after.saddr, widths.len()), (BASE + 3, 2));
    let (after, widths) = after_a_pass(&tcd, 0, BASE);
    assert_eq!((after.saddr, widths.len()), (BASE + 4, 4_194_304 / 4));
}

#[test]
fn p7_and_p8_unequal_sizes() {
    let tcd = |from, to, nbytes| Tcd {
        saddr: BASE,
        attr: Tcd::attr(from, 0, to, 0),
        soff: from.bytes() as i16,
        nbytes,
        daddr: BASE + 8,
        citer: 2,
        doff: to.bytes() as i16,
        biter: 2,
        ..Tcd::default()
    };
    let (after, widths) = after_a_pass(&tcd(Size::One, Size::Four, 3), 0, BASE);
    assert_eq!((after.saddr, after.daddr, widths), (BASE + 3, BASE + 8, vec![]));
    let (after, widths) = after_a_pass(&tcd(Size::Four, Size::Two, 6), 0, BASE);
    assert_eq!((after.saddr, after.daddr, widths), (BASE + 8, BASE + 16, vec![2; 4]));
}

#[test]
fn p9_half_flags() {
    let flagged = |citer, biter| {
        let tcd = Tcd {
            saddr: BASE,
            nbytes: 1,
            daddr: BASE,
            citer,
            biter,
            csr: csr::INTHALF,
            ..Tcd::default()
        };
        let mut bench = Bench::new(BASE, vec![0; 4]).with_device(one_request(CHANNEL, &tcd));
        bench.run(AT_ONCE).expect("nothing leaves the window");
        bench.device().get(Field::Int) != 0
    };
    assert!(!flagged(1, 1));
    assert!(!flagged(2, 1));
    assert_eq!([5, 4, 3, 2, 1].map(|citer| flagged(citer, 5)), [false, false, true, false, false]);
}

#[test]
fn p10_acknowledge() {
    let mut device = Device::fresh();
    put(&mut device, Field::Frc(Controller::Two), 1 << 63);
    put(&mut device, Field::SourceLevel(Controller::Two, Source::new(63)), 7);
    let mut bench = Bench::new(BASE, vec![0; 4]).with_device(device);
    let taken = bench.acknowledge(7).expect("accepted").expect("found");
    assert_eq!((taken.level, taken.vector), (7, 255));
    let field = Field::Taken(Controller::Two, Source::new(63));
    assert_eq!(bench.device().get(field), 1);
}

/// The run of document 01 and its twelve records.
#[test]
fn the_listing() {
    let tcd = Tcd {
        saddr: 0x8000_0000,
        attr: 0x0202,
        soff: 4,
        nbytes: 4,
        daddr: 0x8000_0004,
        citer: 1,
        doff: 4,
        biter: 1,
        csr: 1,
        ..Tcd::default()
    };
    let mut device = Device::fresh();
    device.set_descriptor(CHANNEL, &tcd);
    put(&mut device, Field::Kick, 1);
    let window = vec![0x11, 0x22, 0x33, 0x44, 0, 0, 0, 0];
    let mut bench = Bench::new(BASE, window).with_device(device.clone());
    bench.run(Time { now: 0, pace: 0 }).expect("accepted");
    let listing: Vec<String> =
        bench.journal_bytes().chunks(16).map(beside::difference::hex).collect();
    assert_eq!(
        listing,
        [
            "4a520004800000040000000000000000",
            "4a520104000000000000000080000000",
            "4a520104000000100000000080000004",
            "4a520102000000140000000000000001",
            "4a5201020000001e0000000000000001",
            "4a520108000000008000000402020004",
            "4a520108000000080000000400000000",
            "4a520108000000108000000800000004",
            "4a520108000000180000000000010040",
            "4a520208000000050000000000000001",
            "4a520208000000800000000000000000",
            "4a52030000000000000000000000000b",
        ]
    );
    assert_eq!(bench.window(), [0x11, 0x22, 0x33, 0x44, 0x11, 0x22, 0x33, 0x44]);
    let journal = bench.journal();
    let records = journal.group(0).expect("one act").records();
    assert_eq!(records[9], Record::Field(Field::Kick, 1));
    bench.step_back().expect("one act stands");
    assert_eq!(*bench.device(), device);
    assert_eq!(bench.window()[4..], [0; 4]);
    assert_eq!(bench.step_back(), Err(Refusal::NothingToTakeBack));
}
