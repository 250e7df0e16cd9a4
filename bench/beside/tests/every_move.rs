//! Short inputs of run and service, as far as they can be tried one by one:
//! sizes, offsets, modulo, counts, control bits, the window's ends.

use beside::call::Call;
use beside::lab::{memory, one_request, put, Lab, AT_ONCE, BASE, LEN};
use beside::oracle_at_hand;
use kounpheray::{csr, Channel, Device, Field, Tcd, Time, CR_EMLM};

const CHANNEL: Channel = Channel::new(5);
const OTHER: Channel = Channel::new(41);

/// A plain move of four bytes, one minor loop long.
fn plain() -> Tcd {
    Tcd {
        saddr: BASE + 128,
        attr: 0x0202,
        soff: 4,
        nbytes: 4,
        daddr: BASE + 301,
        citer: 1,
        doff: 4,
        biter: 1,
        ..Tcd::default()
    }
}

/// A move whose addresses stay where they are, for long byte counts.
fn standing_still() -> Tcd {
    Tcd { soff: 0, doff: 0, ..plain() }
}

fn lab(what: &str, cases: impl FnOnce(&mut Lab)) {
    if oracle_at_hand(what) {
        let mut lab = Lab::new();
        cases(&mut lab);
        println!("{what}, {}", lab.pair.tally);
    }
}

fn size(code: u16) -> i16 {
    [1, 2, 4, 1, 16, 32, 1, 1][usize::from(code)]
}

#[test]
fn every_pair_of_sizes() {
    lab("sizes and byte counts", |lab| {
        for codes in 0..64 {
            let (from, to) = (codes / 8, codes % 8);
            for nbytes in 1..=70 {
                for soff in [size(from), 0, 1] {
                    for doff in [size(to), 0, -1] {
                        let attr = from << 8 | to;
                        lab.run(&one_request(
                            CHANNEL,
                            &Tcd { attr, nbytes, soff, doff, ..plain() },
                        ));
                    }
                }
            }
        }
    });
}

#[test]
fn overlapping_copies() {
    lab("overlapping copies", |lab| {
        for codes in 0..64 {
            let (from, to) = (codes / 8, codes % 8);
            for shift in 0..80 {
                for nbytes in [8, 33] {
                    lab.run(&one_request(
                        CHANNEL,
                        &Tcd {
                            attr: from << 8 | to,
                            nbytes,
                            soff: size(from),
                            doff: size(to),
                            daddr: BASE + 128 + shift - 40,
                            ..plain()
                        },
                    ));
                }
            }
        }
    });
}

#[test]
fn every_modulo() {
    lab("modulo", |lab| {
        for smod in 0..32 {
            for dmod in 0..32 {
                for by in [1, -1, 4, -4, i16::MAX, i16::MIN] {
                    for at in [0, 15, 16, 255] {
                        let attr = smod << 11 | 0x0200 | dmod << 3 | 2;
                        let last = i32::from(by).wrapping_mul(0x2_0001) as u32;
                        lab.run(&one_request(
                            CHANNEL,
                            &Tcd {
                                saddr: BASE + at,
                                daddr: BASE + 256 - at,
                                attr,
                                soff: by,
                                doff: by.wrapping_neg(),
                                slast: last,
                                dlast: last.wrapping_neg(),
                                ..plain()
                            },
                        ));
                    }
                }
            }
        }
    });
}

#[test]
fn every_modulo_at_size_16() {
    // The step is taken after the whole size, not after each unit.
    lab("modulo with 16 and 32 bytes", |lab| {
        for modulo in 0..32 {
            for code in [4, 5] {
                for at in [0, 4, 8, 12, 20] {
                    lab.run(&one_request(
                        CHANNEL,
                        &Tcd {
                            saddr: BASE + 96 + at,
                            daddr: BASE + 300 + at,
                            attr: modulo << 11 | code << 8 | modulo << 3 | code,
                            soff: 8,
                            doff: 12,
                            nbytes: 64,
                            ..plain()
                        },
                    ));
                }
            }
        }
    });
}

#[test]
fn every_count() {
    lab("counts and links", |lab| {
        let both = csr::INTHALF | csr::INTMAJOR;
        for citer in 0..=u16::MAX {
            lab.run(&one_request(CHANNEL, &Tcd { citer, biter: citer, csr: both, ..plain() }));
        }
    });
}

#[test]
fn every_half() {
    lab("half flags", |lab| {
        for biter in 0..=u16::MAX {
            let half = (if biter & 0x8000 == 0 { biter } else { biter & 0x1FF }) / 2;
            for citer in [half, half + 1] {
                lab.run(&one_request(CHANNEL, &Tcd { citer, biter, csr: csr::INTHALF, ..plain() }));
            }
        }
    });
}

#[test]
fn every_control_word() {
    lab("control words, at a major end and before it", |lab| {
        let next = Tcd { saddr: BASE, dlast: 0x1234, ..plain() };
        let mut window = memory(LEN);
        for bits in 0..=u16::MAX {
            // A control word that comes with the next descriptor, too.
            let fetched = Tcd { csr: bits.rotate_left(5), ..next };
            window[400..432].copy_from_slice(&fetched.to_bytes());
            for citer in [1, 2] {
                let tcd = Tcd { csr: bits, citer, biter: 2, dlast: BASE + 400, ..plain() };
                lab.begin_in(&one_request(CHANNEL, &tcd), BASE, &window);
                lab.call(Call::Run(AT_ONCE));
            }
        }
    });
}

#[test]
fn minor_offsets() {
    lab("minor offsets", |lab| {
        let offsets = [0, 1, 2, 100, 0x3_FFFF, 0x7_FFFF, 0x8_0000, 0x8_0001, 0xF_FFFE, 0xF_FFFF];
        for enabled in [0, CR_EMLM] {
            for bits in 0..4 {
                for offset in offsets {
                    // Where it is no offset it is a byte count of some length.
                    if offset > 2 && (enabled == 0 || bits == 0) {
                        continue;
                    }
                    for few in [1, 3, 4, 8, 40, 0x3FF] {
                        for citer in [1, 2, 3] {
                            let nbytes = bits << 30 | offset << 10 | few;
                            let tcd = Tcd { nbytes, citer, biter: 3, ..standing_still() };
                            let mut device = one_request(CHANNEL, &tcd);
                            put(&mut device, Field::Cr, u64::from(enabled));
                            lab.run(&device);
                        }
                    }
                }
            }
        }
    });
}

#[test]
fn both_ends_of_the_window() {
    lab("the window's ends", |lab| {
        let window = memory(96);
        let end = (1u64 << 32) - 96;
        for base in [0, BASE, end as u32] {
            for code in 0..8 {
                for near in 0..80 {
                    let low = base.wrapping_add(near).wrapping_sub(40);
                    let high = low.wrapping_add(96);
                    for edge in [low, high] {
                        let one = Tcd { attr: code << 8 | code, saddr: edge, ..plain() };
                        let inside = base.wrapping_add(32);
                        let reads = Tcd { daddr: inside, nbytes: 1, ..one };
                        let writes = Tcd { daddr: edge, saddr: inside, nbytes: 1, ..one };
                        let fetches = Tcd {
                            saddr: inside,
                            daddr: inside,
                            dlast: edge,
                            csr: csr::ESG,
                            nbytes: 1,
                            ..one
                        };
                        for tcd in [reads, writes, fetches] {
                            lab.begin_in(&one_request(CHANNEL, &tcd), base, &window);
                            lab.call(Call::Run(AT_ONCE));
                        }
                    }
                }
            }
        }
    });
}

#[test]
fn every_pair_of_channels() {
    // Both store to one place: the order shows.
    lab("pairs of channels", |lab| {
        for low in Channel::all() {
            for high in Channel::all().filter(|high| low < *high) {
                let mut device = Device::fresh();
                for (channel, from) in [(low, 16), (high, 48)] {
                    let tcd = Tcd { saddr: BASE + from, csr: csr::START, ..plain() };
                    device.set_descriptor(channel, &tcd);
                }
                put(&mut device, Field::Kick, low.bit() | high.bit());
                lab.run(&device);
            }
        }
    });
}

#[test]
fn links_in_every_direction() {
    lab("minor and major links", |lab| {
        for to in Channel::all() {
            for loops in 0..5 {
                let count = 0x8000 | u16::from(to.number()) << 9 | loops;
                let control = csr::link_to(to) | csr::INTMAJOR;
                let linked = Tcd { citer: count, biter: count, csr: control, ..plain() };
                let mut device = one_request(CHANNEL, &linked);
                if to != CHANNEL {
                    device.set_descriptor(to, &Tcd { daddr: BASE + 440, ..plain() });
                }
                put(&mut device, Field::Pending(CHANNEL), 7);
                lab.run(&device);
            }
        }
    });
}

/// Every combination of what a turn looks at.
#[test]
fn busy_deferred_and_requests() {
    lab("busy, deferred, START and requests", |lab| {
        for case in 0..2048u64 {
            let bit = |n: u32| case >> n & 1;
            let channel = if bit(0) == 1 { Channel::PACED } else { OTHER };
            let start = if bit(1) == 1 { csr::START } else { 0 };
            let tcd = Tcd { csr: start | csr::DREQ, citer: bit(2) as u16, ..plain() };
            let mut device = Device::fresh();
            device.set_descriptor(channel, &tcd);
            put(&mut device, Field::Erq, bit(3) * channel.bit());
            put(&mut device, Field::Standing, bit(4) * channel.bit());
            put(&mut device, Field::Kick, bit(5) * channel.bit());
            put(&mut device, Field::Deferred, bit(6) * channel.bit());
            put(&mut device, Field::Busy(channel), [0, 99, 100, 101][(case >> 7 & 3) as usize]);
            put(&mut device, Field::Deadline, [0, 99, 100, u64::MAX][(case >> 9 & 3) as usize]);
            for call in [Call::Run, Call::Service] {
                lab.begin(&device);
                lab.call(call(Time { now: 100, pace: 2 }));
            }
        }
    });
}

#[test]
fn the_paced_channel() {
    lab("channel 35", |lab| {
        let raw = [1, 4, 5, 64, 0x8000_0004, 0xC000_0404, 0x4000_0001, 0x8010_0000 | 4];
        for nbytes in raw {
            for citer in [0, 1, 2, 5] {
                for control in [0, csr::DONE, csr::ESG, csr::DREQ, csr::INTHALF] {
                    for (now, pace) in [(0, 1), (100, 1_000_000), (1 << 62, 3), (7, 0)] {
                        for deadline in [0, 105, 1 << 62, u64::MAX] {
                            let tcd = Tcd {
                                nbytes,
                                citer,
                                biter: 4,
                                soff: 0,
                                doff: 0,
                                csr: control,
                                dlast: BASE + 400,
                                ..plain()
                            };
                            let mut device = Device::fresh();
                            device.set_descriptor(Channel::PACED, &tcd);
                            let bit = Channel::PACED.bit();
                            put(&mut device, Field::Cr, u64::from(CR_EMLM));
                            put(&mut device, Field::Erq, bit);
                            put(&mut device, Field::Standing, bit);
                            put(&mut device, Field::Kick, bit);
                            put(&mut device, Field::Deadline, deadline);
                            let next = Tcd { nbytes: 8, csr: csr::DONE, ..plain() };
                            let mut window = memory(LEN);
                            window[400..432].copy_from_slice(&next.to_bytes());
                            lab.begin_in(&device, BASE, &window);
                            lab.call(Call::Run(Time { now, pace }));
                            lab.call(Call::Service(Time { now, pace }));
                        }
                    }
                }
            }
        }
    });
}

/// A ring of descriptors in the window, gone round more than once.
#[test]
fn chains_of_descriptors() {
    lab("chains and rings of descriptors", |lab| {
        // A ring whose descriptors start themselves goes on for 4,096 turns.
        lab.pair.allow(1 << 18);
        for length in 1..=4u32 {
            for requests in 0..12 {
                for control in [csr::ESG, csr::ESG | csr::START, csr::ESG | csr::INTMAJOR] {
                    let node = |n: u32| BASE + 256 + 32 * (n % length);
                    let part = |n: u32| Tcd {
                        saddr: BASE + 16 * n,
                        daddr: BASE + 160 + 8 * n,
                        dlast: node(n + 1),
                        csr: control,
                        ..plain()
                    };
                    let mut window = memory(LEN);
                    for n in 0..length {
                        let at = (node(n) - BASE) as usize;
                        window[at..at + 32].copy_from_slice(&part(n).to_bytes());
                    }
                    let first = Tcd { csr: control & !csr::START, ..part(0) };
                    let mut device = one_request(CHANNEL, &first);
                    put(&mut device, Field::Pending(CHANNEL), requests);
                    lab.begin_in(&device, BASE, &window);
                    lab.call(Call::Run(AT_ONCE));
                    lab.call(Call::Run(AT_ONCE));
                }
            }
        }
    });
}

/// Pending counts are spent one for each pass; DREQ ends a turn.
#[test]
fn requests_are_spent() {
    lab("pending counts", |lab| {
        for pending in [0, 1, 2, 3, 7] {
            for citer in [0, 1, 2, 3] {
                for control in [0, csr::DREQ, csr::DREQ | csr::START] {
                    let tcd = Tcd { citer, biter: 3, csr: control, ..plain() };
                    let mut device = one_request(CHANNEL, &tcd);
                    put(&mut device, Field::Pending(CHANNEL), pending);
                    lab.run(&device);
                }
            }
        }
    });
}

/// Counts that come one after another add up, also to those that a turn left:
/// with DREQ it ends at the major end.
#[test]
fn requests_add_up() {
    lab("pending counts that add up", |lab| {
        let channel = u32::from(CHANNEL.number());
        for stands in [0, 1, 2, 600] {
            for counts in [[1, 1, 0], [0, 0, 0], [2, 0, 5], [3, 601, 1]] {
                for control in [0, csr::DREQ] {
                    let tcd = Tcd { citer: 2, biter: 2, csr: control, ..standing_still() };
                    let mut device = one_request(CHANNEL, &tcd);
                    put(&mut device, Field::Pending(CHANNEL), stands);
                    put(&mut device, Field::Kick, 0);
                    lab.begin(&device);
                    for count in counts {
                        lab.call(Call::Pending { channel, count });
                        lab.call(Call::Pending { channel, count: count / 2 });
                        lab.call(Call::Inputs { standing: 0, lines: [0; 3] });
                        lab.call(Call::Run(AT_ONCE));
                    }
                }
            }
        }
    });
}

/// A ring of two channels that start each other: a run makes 4,096 turns and
/// leaves the rest for the next.
#[test]
fn turns_come_to_an_end() {
    lab("4,096 turns", |lab| {
        let mut device = Device::fresh();
        for (channel, to) in [(CHANNEL, OTHER), (OTHER, CHANNEL)] {
            let started = if channel == CHANNEL { csr::START } else { 0 };
            let tcd = Tcd { csr: csr::link_to(to) | started, ..standing_still() };
            device.set_descriptor(channel, &tcd);
        }
        put(&mut device, Field::Kick, CHANNEL.bit());
        lab.begin(&device);
        lab.call(Call::Run(AT_ONCE));
        lab.call(Call::Run(AT_ONCE));
        let left = Device::from_image(&lab.pair.world.image).expect("a device");
        assert_eq!(left.get(Field::Majors(CHANNEL)), 4096);
        assert_ne!(left.get(Field::Kick), 0);
    });
}
