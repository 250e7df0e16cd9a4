//! Captures judged by the entry: lists that the model and the Rust give, every
//! single change of such lists, lists of noise, malformed and cut records.

use beside::capture::{anywhere, listed, Case, CODES};
use beside::lab::one_request;
use beside::oracle_at_hand;
use beside::random::{seeds, Random};
use kounpheray::entries;
use kounpheray::{
    csr, Access, AccessKind, Capture, Channel, Field, Judged, Size, Tcd, Unit, CR_EMLM,
};
use model::capture::{self, records, Access as Seen};
use oracle::{Oracle, Ran};
use std::collections::{BTreeMap, BTreeSet};
use std::fmt;

/// Not a channel that the Rust treats apart.
const CHANNEL: Channel = Channel::new(5);

/// How often each kind came, to be told.
#[derive(Debug, Default)]
struct Counts(BTreeMap<&'static str, u64>);

impl Counts {
    fn one(&mut self, what: &'static str) {
        *self.0.entry(what).or_default() += 1;
    }

    /// A list of this kind, and whether it departs.
    fn departs(&mut self, departs: bool) {
        self.one(if departs { "departs" } else { "allowed" });
    }
}

impl fmt::Display for Counts {
    fn fmt(&self, to: &mut fmt::Formatter<'_>) -> fmt::Result {
        self.0.iter().try_for_each(|(what, count)| write!(to, "\n  {count:>9}  {what}"))
    }
}

/// Counts what there is in a list.
fn count(counts: &mut Counts, case: &Case, list: &[Seen]) {
    let tcd = &case.tcd;
    let (from, to) = (tcd.source_size(), tcd.destination_size());
    let passes = |one: u32, next: u32| one > 0xFFFF_0000 && next < 0x1_0000;
    let wraps = list.windows(3).any(|part| passes(part[0].address, part[2].address));
    let minor = case.cr & CR_EMLM != 0 && tcd.nbytes >> 30 != 0;
    for (what, is_so) in [
        ("empty", list.is_empty()),
        ("equal sizes", from == to),
        ("unequal sizes", from != to),
        ("a fetch of 32 bytes", !list.is_empty() && case.fetches() > 0),
        ("a modulo", tcd.attr & 0xF8F8 != 0),
        ("an offset below 0", tcd.soff < 0 || tcd.doff < 0),
        ("a minor offset", minor),
        ("bits of a minor offset without CR", tcd.nbytes >> 30 != 0 && !minor),
        ("addresses that pass 2^32", wraps),
        ("read and not written", list.iter().all(|access| !access.write)),
    ] {
        if is_so {
            counts.one(what);
        }
    }
    counts.one("lists");
}

fn assert_all_tried(counts: &Counts, pairs: &BTreeSet<(Size, Size)>, what: &str) {
    println!("{what}: {} pairs of sizes, {counts}", pairs.len());
    assert_eq!(pairs.len(), 25);
    for kind in [
        "empty",
        "equal sizes",
        "unequal sizes",
        "a fetch of 32 bytes",
        "a modulo",
        "an offset below 0",
        "a minor offset",
        "bits of a minor offset without CR",
        "addresses that pass 2^32",
        "read and not written",
    ] {
        assert!(counts.0.contains_key(kind), "{what}: no list with {kind}");
    }
}

#[test]
fn lists_of_the_model_are_allowed() {
    let (mut counts, mut pairs) = (Counts::default(), BTreeSet::new());
    for seed in seeds() {
        let mut random = Random::new(9000 + seed);
        for n in 0..100 * CODES {
            let case = Case::random(&mut random, n % CODES, 400, anywhere);
            let list = case.list(&mut random);
            assert_eq!(case.judged(&list), None, "{case:x?}");
            pairs.insert((case.tcd.source_size(), case.tcd.destination_size()));
            count(&mut counts, &case, &list);
        }
    }
    assert_all_tried(&counts, &pairs, "lists of the model");
}

/// One minor loop of the Rust, as a probe on its bus sees it; none where it
/// leaves the window.
fn seen_of_the_rust(oracle: &mut Oracle, case: &Case, memory: (u32, &[u8])) -> Option<Vec<Seen>> {
    // One loop for one request; START would make all of them.
    let control = case.tcd.csr & !csr::START;
    let mut device = one_request(CHANNEL, &Tcd { csr: control, ..case.tcd });
    device.set(Field::Cr, case.cr.into()).expect("CR has 32 bits");
    oracle.reload(&device.image(), memory.0, memory.1).expect("it lies in the claimed domain");
    match oracle.run(0, 0) {
        Ran::Whole => {
            let seen = |one: &oracle::Access| {
                let oracle::Access { write, address, width, value } = *one;
                Seen { write, address, width, value }
            };
            Some(oracle.accesses().iter().map(seen).collect())
        }
        Ran::LeftWindow | Ran::GivenUp => None,
    }
}

#[test]
fn lists_of_the_rust_are_allowed() {
    if !oracle_at_hand("lists of the Rust") {
        return;
    }
    let (mut counts, mut pairs) = (Counts::default(), BTreeSet::new());
    let mut window = vec![0; 1 << 13];
    let mut oracle = Oracle::load(&kounpheray::Device::fresh().image(), 0, &window)
        .expect("a fresh device can be compared");
    for seed in seeds() {
        let mut random = Random::new(10_000 + seed);
        random.fill(&mut window);
        // A descriptor that is fetched has no START: it would be a second loop.
        window.iter_mut().for_each(|byte| *byte &= !1);
        for n in 0..100 * CODES {
            // The second one goes past 2^32, and on at 0.
            let base: u32 = random.pick(&[0x8000_0000, 0xFFFF_F000]);
            let inside = |random: &mut Random| base.wrapping_add(3000 + random.below(2000) as u32);
            let case = Case::random(&mut random, n % CODES, 200, inside);
            let Some(list) = seen_of_the_rust(&mut oracle, &case, (base, &window)) else {
                counts.one("outside the Rust's window, not judged");
                continue;
            };
            assert_eq!(case.judged(&list), None, "{case:x?}");
            pairs.insert((case.tcd.source_size(), case.tcd.destination_size()));
            count(&mut counts, &case, &list);
        }
    }
    assert_all_tried(&counts, &pairs, "lists of the Rust");
}

/// Where a byte that a read gave is written, if it is: the writes carry the
/// bytes that were read, in their order.
fn carried(case: &Case, list: &[Seen], at: usize, byte: usize) -> Option<usize> {
    let moved = &list[..list.len() - case.fetches()];
    if at >= moved.len() {
        return None;
    }
    let bytes = |accesses: &[Seen], write: bool| -> usize {
        accesses.iter().filter(|one| one.write == write).map(|one| usize::from(one.width)).sum()
    };
    let place = bytes(&moved[..at], false) + byte;
    (at..moved.len()).find(|&n| moved[n].write && bytes(&moved[..=n], true) > place)
}

/// A list with one access changed.
fn changed(list: &[Seen], at: usize, change: impl FnOnce(&mut Seen)) -> Vec<Seen> {
    let mut other = list.to_vec();
    change(&mut other[at]);
    other
}

/// Every single change of one access: it departs there, and for a value read
/// where it is written.
fn change_each(random: &mut Random, case: &Case, list: &[Seen], counts: &mut Counts) {
    for at in 0..list.len() {
        let mut departs_here = |what: &'static str, change: &dyn Fn(&mut Seen)| {
            assert_eq!(case.judged(&changed(list, at, change)), Some(at), "{what}: {case:x?}");
            counts.one(what);
        };
        let (bit, Seen { write, width, .. }) = (random.below(32), list[at]);
        departs_here("address", &|one| one.address = one.address.wrapping_add(1));
        departs_here("address", &|one| one.address ^= 1 << bit);
        departs_here("kind", &|one| one.write = !one.write);
        for other in [1, 2, 4].into_iter().filter(|&other| other != width) {
            departs_here("width", &|one| {
                one.width = other;
                one.value &= u32::MAX >> (32 - 8 * other);
            });
        }
        let bit = bit as usize % (8 * usize::from(width));
        if write {
            departs_here("value written", &|one| one.value ^= 1 << bit);
            continue;
        }
        let byte = usize::from(width) - 1 - bit / 8;
        let place = carried(case, list, at, byte);
        let other = changed(list, at, |one| one.value ^= 1 << bit);
        assert_eq!(case.judged(&other), place, "a value read at {at}: {case:x?}");
        counts.one(match place {
            Some(_) => "value read, and written",
            None => "value read, and not written",
        });
    }
}

/// Every access dropped, doubled and moved, and every length that is wrong.
fn change_row(random: &mut Random, case: &Case, list: &[Seen], counts: &mut Counts) {
    for at in 0..list.len() {
        let mut dropped = list.to_vec();
        dropped.remove(at);
        assert!(case.judged(&dropped) >= Some(at), "dropped: {case:x?}");
        let mut doubled = list.to_vec();
        doubled.insert(at, list[at]);
        assert!(case.judged(&doubled) > Some(at), "doubled: {case:x?}");
        for other in [(at + 1) % list.len(), random.below(list.len() as u64) as usize] {
            let mut swapped = list.to_vec();
            swapped.swap(at, other);
            let departs = case.judged(&swapped);
            assert!(departs.is_none() || departs >= Some(at.min(other)), "swapped: {case:x?}");
            counts.one(if departs.is_none() { "swapped, allowed" } else { "swapped, departs" });
        }
        assert_eq!(case.judged(&list[..at]), Some(at), "cut short: {case:x?}");
        for what in ["dropped", "doubled", "cut short"] {
            counts.one(what);
        }
    }
    let last = list.last().copied();
    for more in [noise(random, case), last.unwrap_or_else(|| noise(random, case))] {
        let longer = [list, &[more]].concat();
        assert_eq!(case.judged(&longer), Some(list.len()), "one more: {case:x?}");
        counts.one("one more");
    }
}

/// An access that has nothing to do with a minor loop, but may lie near it.
fn noise(random: &mut Random, case: &Case) -> Seen {
    let width = random.pick(&[1, 2, 4]);
    let any = random.word() as u32;
    Seen {
        write: random.once_in(2),
        address: random.pick(&[case.tcd.saddr, case.tcd.daddr, case.tcd.dlast, any]),
        width,
        value: random.word() as u32 >> (32 - 8 * width),
    }
}

#[test]
fn every_change_departs_where_it_must() {
    let mut counts = Counts::default();
    for seed in seeds() {
        let mut random = Random::new(11_000 + seed);
        for n in 0..4 * CODES {
            let case = Case::random(&mut random, n % CODES, 50, anywhere);
            let list = case.list(&mut random);
            assert_eq!(case.judged(&list), None, "{case:x?}");
            change_each(&mut random, &case, &list, &mut counts);
            change_row(&mut random, &case, &list, &mut counts);
        }
    }
    println!("single changes of lists, {counts}");
    for kind in ["value read, and written", "value read, and not written", "swapped, departs"] {
        assert!(counts.0.contains_key(kind), "{kind}");
    }
}

/// The same list beside a descriptor or CR with one bit changed. What has no
/// part in a minor loop's accesses has none in the verdict.
#[test]
fn every_bit_of_descriptor_and_cr() {
    let mut counts = Counts::default();
    for seed in seeds() {
        let mut random = Random::new(12_000 + seed);
        for n in 0..2 * CODES {
            let case = Case::random(&mut random, n % CODES, 20, anywhere);
            let list = case.list(&mut random);
            let first_write = list.iter().position(|access| access.write);
            for bit in 0..256 {
                let mut bytes = case.tcd.to_bytes();
                bytes[bit / 8] ^= 0x80 >> (bit % 8);
                let other = Case { tcd: Tcd::from_bytes(&bytes), ..case };
                let departs = other.judged(&list);
                match bit / 8 {
                    0..=3 if !list.is_empty() => assert_eq!(departs, Some(0), "saddr"),
                    16..=19 if !list.is_empty() => assert_eq!(departs, first_write, "daddr"),
                    12..=15 | 28..=30 => assert_eq!(departs, None, "slast, biter, a link"),
                    31 if bit != 251 => assert_eq!(departs, None, "csr, but for ESG"),
                    24..=27 if case.fetches() == 0 => assert_eq!(departs, None, "dlast"),
                    _ => {}
                }
                counts.departs(departs.is_some());
            }
            for bit in 0..32 {
                let other = Case { cr: case.cr ^ 1 << bit, ..case };
                let departs = other.judged(&list);
                assert!(departs.is_none() || 1 << bit == CR_EMLM, "CR bit {bit}: {case:x?}");
                counts.departs(departs.is_some());
            }
        }
    }
    println!("another bit of descriptor or CR, {counts}");
}

/// Lists that no minor loop gave: of noise, of another descriptor, spliced, and
/// with some accesses changed.
#[test]
fn lists_of_noise() {
    let (mut counts, mut places) = (BTreeMap::new(), BTreeSet::new());
    for seed in seeds() {
        let mut random = Random::new(13_000 + seed);
        for n in 0..8 * CODES {
            let case = Case::random(&mut random, n % CODES, 60, anywhere);
            let list = case.list(&mut random);
            let length = random.below(20) as usize;
            let of_noise: Vec<Seen> = (0..length).map(|_| noise(&mut random, &case)).collect();
            let spliced_at = random.below(list.len() as u64 + 1) as usize;
            let mut changed = list.clone();
            for one in &mut changed {
                if random.once_in(30) {
                    *one = noise(&mut random, &case);
                }
            }
            let other = Case::random(&mut random, n % CODES, 60, |_| case.tcd.saddr);
            for (what, tried) in [
                ("noise", of_noise.clone()),
                ("noise behind a part", [&list[..spliced_at], &of_noise].concat()),
                ("twice", list.repeat(2)),
                ("some changed", changed),
                ("another's", other.list(&mut random)),
                ("reversed", list.iter().rev().copied().collect()),
            ] {
                let departs = case.judged(&tried);
                places.extend(departs);
                let told = if departs.is_none() { "allowed" } else { "departs" };
                *counts.entry((what, told)).or_insert(0) += 1;
            }
        }
    }
    println!("lists that no minor loop gave, {} places, {counts:?}", places.len());
    assert!(places.len() > 30, "they depart at {} places alone", places.len());
}

/// The longest minor loops, 2^22 bytes however the count came to it, and one
/// of 5,000 bytes, whose bits of a minor offset count for nothing.
#[test]
fn the_longest_lists() {
    for (codes, nbytes, cr) in [
        (0o55, 0, 0),
        (0o41, 0x3FFF_FFFF, CR_EMLM),
        (0o22, 0xC000_0000, CR_EMLM),
        (0o15, 0xC000_0000 | 5000, !CR_EMLM),
    ] {
        let mut random = Random::new(codes.into());
        let (from, to) = (codes / 8, codes % 8);
        let attr = from << 8 | to;
        let tcd = Tcd { attr, nbytes, citer: 1, csr: csr::ESG, ..Tcd::default() };
        let case = Case { tcd, cr };
        let list = case.list(&mut random);
        let bytes = records(&list);
        let one_more = [&bytes[..], &bytes[..16]].concat();
        for (tried, expected) in [
            (&bytes[..], 0),
            (&bytes[..bytes.len() - 16], 1 << 32 | (list.len() as u64 - 1)),
            (&one_more, 1 << 32 | list.len() as u64),
        ] {
            assert_eq!(case.answer(tried).0, expected, "{case:x?}");
        }
        println!("size codes {codes:02o}, nbytes {nbytes:x}: {} accesses", list.len());
    }
}

/// A list for the tests of records, and what it is judged by.
fn some_list(random: &mut Random, n: u16) -> (Case, Vec<Seen>) {
    let case = Case::random(random, n % CODES, 12, anywhere);
    let mut list = case.list(random);
    // 22 comes before a departure, wherever that is.
    if random.once_in(2) {
        list.insert(random.below(list.len() as u64 + 1) as usize, noise(random, &case));
    }
    (case, list)
}

/// The flaws that one record can have: which byte, and what it becomes.
fn flaws(random: &mut Random, record: &[u8]) -> Vec<(&'static str, usize, u8)> {
    let width = usize::from(record[3]);
    let mut all = vec![
        ("mark", 0, record[0] ^ 1 << random.below(8)),
        ("mark", 1, record[1] ^ 1 << random.below(8)),
        ("value", 8 + random.below(8 - width as u64) as usize, 1 << random.below(8)),
        // The first value that is too wide, if the rest is zero.
        ("value", 15 - width, 1),
    ];
    all.extend([0, 1, 2, 3, 6, 8, 0x84, 255].map(|kind| ("kind", 2, kind)));
    all.extend([0, 3, 5, 8, 16, 0x82, 255].map(|width| ("width", 3, width)));
    all
}

#[test]
fn malformed_records() {
    let mut counts = Counts::default();
    for seed in seeds() {
        let mut random = Random::new(14_000 + seed);
        for n in 0..CODES {
            let (case, list) = some_list(&mut random, n);
            let sound = records(&list);
            for at in 0..list.len() {
                for (what, byte, new) in flaws(&mut random, &sound[16 * at..]) {
                    let mut bytes = sound.clone();
                    bytes[16 * at + byte] = new;
                    let expected = 22 << 56 | at as u64;
                    assert_eq!(case.answer(&bytes).0, expected, "{what} at {at}: {case:x?}");
                    // The first one counts, whatever comes behind it.
                    let behind = at + random.below((list.len() - at) as u64) as usize;
                    let others = flaws(&mut random, &sound[16 * behind..]);
                    let (_, byte, new) = random.pick(&others);
                    bytes[16 * behind + byte] = new;
                    let cut = (bytes.len() - random.below(16) as usize).max(16 * at + 16);
                    assert_eq!(case.answer(&bytes[..cut]).0, expected, "the first: {case:x?}");
                    counts.one(what);
                }
            }
        }
    }
    println!("malformed records, {counts}");
}

#[test]
fn cut_records() {
    let mut counts = Counts::default();
    for seed in seeds() {
        let mut random = Random::new(15_000 + seed);
        for n in 0..2 * CODES {
            let (case, list) = some_list(&mut random, n);
            let one_more = [&list[..], &[noise(&mut random, &case)]].concat();
            let bytes = records(&one_more);
            for length in (0..bytes.len()).filter(|length| length % 16 != 0) {
                let (answer, record) = (case.answer(&bytes[..length]), length as u64 / 16);
                assert_eq!(answer.0, 22 << 56 | record, "{length} bytes: {case:x?}");
                counts.one("cut");
            }
        }
    }
    println!("cut records, {counts}");
}

/// The widest value of each width is taken, the next is malformed.
#[test]
fn the_widest_values() {
    // Reads of these widths, with a destination so large that nothing is written.
    for (code, width) in [(0, 1), (1, 2), (2, 4)] {
        let tcd = Tcd { attr: code << 8 | 5, nbytes: 1, citer: 1, ..Tcd::default() };
        let case = Case { tcd, cr: 0 };
        let mut record = [0x4A, 0x52, 4, width, 0, 0, 0, 0, 0, 0, 0, 0, 0, 0, 0, 0];
        let past = 256u64.pow(width.into());
        for (value, answer) in [(0, 0), (past - 1, 0), (past, 22 << 56), (u64::MAX, 22 << 56)] {
            record[8..].copy_from_slice(&value.to_be_bytes());
            assert_eq!(case.answer(&record).0, answer, "{value:x} in {width}");
        }
    }
}

/// Document 01's 'Run only'.
const RUN_ONLY: Tcd = Tcd {
    saddr: 0x8000_0000,
    attr: 0x0202,
    soff: 4,
    nbytes: 4,
    slast: 0,
    daddr: 0x8000_0004,
    citer: 1,
    doff: 4,
    dlast: 0,
    biter: 1,
    csr: csr::START,
};

/// Nothing at all is short, but where nothing happens; and the fetches that
/// docs/CAPTURE.md counts.
#[test]
fn empty_lists_and_fetches() {
    let case = |tcd: Tcd| Case { tcd, cr: 0 };
    assert_eq!(case(RUN_ONLY).answer(&[]).0, 1 << 32);
    let none = Tcd { citer: 0x8200, csr: csr::ESG, ..RUN_ONLY };
    assert_eq!(case(none).answer(&[]).0, 0);
    let mut random = Random::new(1);
    let gathers = Tcd { csr: csr::START | csr::ESG, dlast: 0x8000_1000, ..RUN_ONLY };
    let list = case(gathers).list(&mut random);
    let fetched = list[2..].iter().map(|access| (access.write, access.address, access.width));
    assert!(fetched.eq((0x8000_1000..=0x8000_101F).map(|address| (false, address, 1))));
    assert_eq!(case(gathers).judged(&list), None);
    assert_eq!(case(Tcd { citer: 2, ..gathers }).judged(&list[..2]), None);
}

#[test]
fn what_is_no_capture_or_no_descriptor() {
    let case = Case { tcd: RUN_ONLY, cr: 0 };
    // A journal handed in by mistake.
    let journal = listed(include_str!("../../../docs/JOURNAL.md"));
    assert_eq!(journal.len(), 12 * 16);
    assert_eq!(case.answer(&journal).0, 22 << 56);
    // A descriptor of another length, before all else.
    let mut random = Random::new(1);
    let sound = records(&case.list(&mut random));
    let bytes = [RUN_ONLY.to_bytes(), RUN_ONLY.to_bytes()].concat();
    assert_eq!(entries::capture(&bytes[..32], 0, &sound).0, 0);
    for length in (0..=64).filter(|&length| length != 32) {
        for tried in [&sound[..], &sound[..5], &[]] {
            let status = entries::capture(&bytes[..length], 0, tried).status();
            assert_eq!(status, 255, "a descriptor of {length} bytes");
        }
    }
}

fn access(seen: &Seen) -> Access {
    let kind = if seen.write { AccessKind::Write } else { AccessKind::Read };
    let unit = match seen.width {
        1 => Unit::One(seen.value as u8),
        2 => Unit::Two(seen.value as u16),
        _ => Unit::Four(seen.value),
    };
    Access { kind, address: seen.address, unit }
}

/// The crate's captures: built, laid down, read back and judged.
#[test]
fn through_the_crate() {
    let mut counts = Counts::default();
    for seed in seeds() {
        let mut random = Random::new(16_000 + seed);
        for n in 0..4 * CODES {
            let (case, list) = some_list(&mut random, n);
            let built: Capture = list.iter().map(access).collect();
            let mut bytes = records(&list);
            assert_eq!(built.records(), bytes);
            assert_eq!(Capture::from_records(&bytes).as_ref(), Ok(&built));
            assert!(built.accesses().eq(list.iter().map(access)));
            assert_eq!((built.len(), built.is_empty()), (list.len(), list.is_empty()));
            let judged = match case.judged(&list) {
                None => Judged::Allowed,
                Some(at) => Judged::DepartsAt(at as u64),
            };
            assert_eq!(built.judge(&case.tcd, case.cr), judged);
            counts.one("judged");
            if list.is_empty() {
                continue;
            }
            let at = random.below(list.len() as u64) as usize;
            let flaws = flaws(&mut random, &bytes[16 * at..]);
            let (_, byte, new) = random.pick(&flaws);
            bytes[16 * at + byte] = new;
            bytes.truncate(bytes.len() - random.below(16) as usize);
            let (record, flaw) = capture::read(&bytes).expect_err("it has a flaw");
            let told = Capture::from_records(&bytes).expect_err("it has a flaw");
            assert_eq!((told.record, told.refusal().number()), (record as u64, 22));
            assert_eq!(format!("{:?}", told.flaw), format!("{flaw:?}"));
            assert_eq!(Capture::judge_records(&bytes, &case.tcd, case.cr), Err(told));
            counts.one("refused");
        }
    }
    println!("through the crate, {counts}");
}
