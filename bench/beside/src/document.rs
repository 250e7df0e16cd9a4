//! The documents' own cases as a list: what they tell is written down here, from
//! the documents, and asked of no engine.

use crate::call::Call;
use crate::lab::{AT_ONCE, BASE};
use crate::recorded::{
    call_rows, eight_bytes, lines, place, Answered, Begin, Row, FORMAT, JOURNAL_AT,
    JOURNAL_LENT_AT, STAGING_LENT_AT, USED_AT, WINDOW_AT,
};
use kounpheray::{csr, Channel, Controller, Field, Mode, Source, Tcd, Time, CR_EMLM, RECORD, TCD};
use Controller::{One, Two, Zero};

const HEAD: &str = "\
# The documents' own cases, written by
# `cargo run --release -p beside --bin document`.
";

const DMA: u32 = 0xFC04_4000;
const TABLE: u32 = 0xFC04_5000;
const CONTROLLER0: u32 = 0xFC04_8000;
const CONTROLLER1: u32 = 0xFC04_C000;
const CONTROLLER2: u32 = 0xFC05_0000;

const ALL: u64 = u64::MAX;
const CHANNEL: Channel = Channel::new(0);

/// The whole list.
pub fn text() -> String {
    let mut list =
        List { text: format!("{HEAD}{FORMAT}"), bytes: vec![0; USED_AT], used: 0, cases: 0 };
    dma_registers(&mut list);
    other_registers(&mut list);
    p10(&mut list);
    passes(&mut list);
    run_only(&mut list);
    damage(&mut list);
    as_the_chip(&mut list);
    list.text
}

// ---- the list

/// What a call changes.
#[derive(Clone, Copy)]
enum Change<'a> {
    /// A field's value.
    To(Field, u64),
    /// Bytes at an offset of the whole, as the table's at 0.
    Bytes(usize, &'a [u8]),
}
use Change::{Bytes, To};

/// What a read answers: a value, or the number of a refusal.
type Reads = Result<u32, u8>;

/// The text so far; the table, window and journal as they are at this place
/// of it, to complete eight bytes of which some change; the used length.
struct List {
    text: String,
    bytes: Vec<u8>,
    used: u64,
    cases: u16,
}

impl List {
    fn note(&mut self, what: &str) {
        self.text += &format!("# {what}\n");
    }

    fn rows(&mut self, rows: &[Row]) {
        self.text += &lines(rows);
    }

    /// A case in the old mode with masks in force, its window `first`,
    /// `first + step`, ..
    fn case(&mut self, what: &str, length: u32, first: u8, step: u8) {
        self.case_in(Mode::Old, what, length, first, step);
    }

    fn case_in(&mut self, mode: Mode, what: &str, length: u32, first: u8, step: u8) {
        self.text += "\n";
        self.note(what);
        let number = self.cases;
        let (ignore_masks, base) = (false, BASE);
        let begin = Begin { mode, ignore_masks, number, base, length, first, step, filled: 0xEE };
        self.cases += 1;
        self.used = 0;
        self.bytes.fill(0xEE);
        self.bytes[..TCD * 64].fill(0);
        self.bytes[WINDOW_AT..WINDOW_AT + 256].copy_from_slice(&begin.room());
        self.rows(&[begin.row()]);
    }

    fn lend(&mut self, staging: u64, journal: u64, used: u64) {
        self.used = used;
        for (at, number) in
            [(STAGING_LENT_AT, staging), (JOURNAL_LENT_AT, journal), (USED_AT, used)]
        {
            self.rows(&[eight_bytes(false, at, number)]);
        }
    }

    /// The change is set (02) or told (20).
    fn change(&mut self, told: bool, change: Change) {
        match change {
            To(field, value) => self.rows(&[eight_bytes(told, place(field), value)]),
            Bytes(at, bytes) => {
                self.bytes[at..at + bytes.len()].copy_from_slice(bytes);
                for first in (at / 8 * 8..at + bytes.len()).step_by(8) {
                    let eight = self.bytes[first..first + 8].try_into().expect("eight bytes");
                    self.rows(&[eight_bytes(told, first, u64::from_be_bytes(eight))]);
                }
            }
        }
    }

    fn set(&mut self, change: Change) {
        self.change(false, change);
    }

    fn refused(&mut self, call: Call, status: u8) {
        self.rows(&call_rows(call, Answered { status, ..Answered::default() }));
    }

    /// An accepted call, by how many bytes it lengthens the journal, and what
    /// it changes.
    fn accepted(&mut self, call: Call, answered: Answered, added: u64, changes: &[Change]) {
        self.rows(&call_rows(call, answered));
        self.used += added;
        self.rows(&[eight_bytes(true, USED_AT, self.used)]);
        for change in changes {
            self.change(true, *change);
        }
    }

    fn see(&mut self, address: u32, size: u32, reads: Reads) {
        let (value, status) = (reads.unwrap_or(0), reads.err().unwrap_or(0));
        let answered = Answered { status, value, ..Answered::default() };
        self.rows(&call_rows(Call::Read { address, size }, answered));
    }

    /// A write, and a read of the same place.
    fn put(
        &mut self,
        (address, size, value): (u32, u32, u32),
        added: u64,
        changes: &[Change],
        reads: Reads,
    ) {
        let call = Call::Write { address, size, value };
        self.accepted(call, Answered::default(), added, changes);
        self.see(address, size, reads);
    }

    /// A write that is refused, and a read of the same place.
    fn put_refused(&mut self, (address, size, value): (u32, u32, u32), status: u8, reads: u8) {
        self.refused(Call::Write { address, size, value }, status);
        self.see(address, size, Err(reads));
    }

    /// A pending call, and the channel's count after it.
    fn pending(&mut self, channel: u32, count: u32, added: u64, stands: u32) {
        let field = Field::Pending(Channel::new(channel as u8));
        let changes = [To(field, stands.into())];
        let call = Call::Pending { channel, count };
        let changes = if count == 0 { &[] } else { &changes[..] };
        self.accepted(call, Answered::default(), added, changes);
    }

    fn acknowledge(&mut self, ipl: u8, found: Option<(u8, u8)>, added: u64, changes: &[Change]) {
        let (level, vector) = found.unwrap_or((0, 0));
        let answered = Answered { level, vector, ..Answered::default() };
        self.accepted(Call::Acknowledge { ipl }, answered, added, changes);
    }
}

// ---- registers: every arm

fn dma_registers(list: &mut List) {
    list.case("DMA words; no register sets INT and ERR bits", 8, 0, 0);
    list.set(To(Field::Int, ALL));
    list.set(To(Field::Err, ALL));
    let driven = [
        To(Field::Cr, 0x80),
        To(Field::Lines(Zero), 0xFF_FF00),
        To(Field::Lines(One), 0xFFFF_FFFF_FF00),
        To(Field::Lines(Two), 1),
    ];
    list.put((DMA, 4, 0x80), 80, &driven, Ok(0x80));
    list.see(DMA + 0x04, 4, Ok(0));
    let erq = |value| [To(Field::Erq, value)];
    list.put((DMA + 0x08, 4, 0x8000_0001), 32, &erq(0x8000_0001_0000_0000), Ok(0x8000_0001));
    list.put((DMA + 0x0C, 4, 3), 32, &erq(0x8000_0001_0000_0003), Ok(3));
    let eei = |value| [To(Field::Eei, value)];
    list.put((DMA + 0x10, 4, 4), 32, &eei(0x0000_0004_0000_0000), Ok(4));
    list.put((DMA + 0x14, 4, 5), 32, &eei(0x0000_0004_0000_0005), Ok(5));
    let left =
        [To(Field::Int, 0xFFFF_FFFF), To(Field::Lines(One), 0xFF_FF00), To(Field::Lines(Two), 0)];
    list.put((DMA + 0x20, 4, 0xFFFF_FFFF), 64, &left, Ok(0));
    let left = [To(Field::Int, 0xFFFF_0000), To(Field::Lines(Zero), 0)];
    list.put((DMA + 0x24, 4, 0xFFFF), 48, &left, Ok(0xFFFF_0000));
    let err = |value| [To(Field::Err, value)];
    list.put((DMA + 0x28, 4, 0x0F0F_0F0F), 32, &err(0xF0F0_F0F0_FFFF_FFFF), Ok(0xF0F0_F0F0));
    list.put((DMA + 0x2C, 4, 0xF0F0_F0F0), 32, &err(0xF0F0_F0F0_0F0F_0F0F), Ok(0x0F0F_0F0F));
    list.see(DMA + 0x30, 4, Ok(0));
    list.see(DMA + 0x34, 4, Ok(0));
    mask_commands(list);
    flag_commands(list);
}

fn mask_commands(list: &mut List) {
    list.note("commands on masks; channel 7 requests, 8 does not");
    list.set(To(Field::Pending(Channel::new(7)), 1));
    let kicked = [To(Field::Erq, 0x8000_0001_0000_0083), To(Field::Kick, 0x80)];
    list.put((DMA + 0x18, 1, 7), 48, &kicked, Ok(0));
    list.put((DMA + 0x18, 1, 8), 32, &[To(Field::Erq, 0x8000_0001_0000_0183)], Ok(0));
    list.see(DMA + 0x0C, 4, Ok(0x183));
    list.put((DMA + 0x19, 1, 8), 32, &[To(Field::Erq, 0x8000_0001_0000_0083)], Ok(0));
    list.see(DMA + 0x0C, 4, Ok(0x83));
    list.put((DMA + 0x1A, 1, 63), 32, &[To(Field::Eei, 0x8000_0004_0000_0005)], Ok(0));
    list.see(DMA + 0x10, 4, Ok(0x8000_0004));
    list.put((DMA + 0x1B, 1, 63), 32, &[To(Field::Eei, 0x0000_0004_0000_0005)], Ok(0));
    list.see(DMA + 0x10, 4, Ok(4));
    let left = [To(Field::Int, 0xFFFE_0000), To(Field::Lines(One), 0xFF_FE00)];
    list.put((DMA + 0x1C, 1, 16), 48, &left, Ok(0));
    list.see(DMA + 0x24, 4, Ok(0xFFFE_0000));
    list.put((DMA + 0x1D, 1, 0x40), 32, &[To(Field::Err, 0)], Ok(0));
    list.see(DMA + 0x28, 4, Ok(0));
}

fn flag_commands(list: &mut List) {
    list.note("commands on flags: of one channel, of all; words of four commands");
    let flags = |channel: usize| TCD * channel + 0x1F;
    let started = [Bytes(flags(5), &[1]), To(Field::Kick, 0xA0)];
    list.put((DMA + 0x1E, 1, 5), 48, &started, Ok(0));
    list.see(TABLE + 0xBF, 1, Ok(1));
    let mut all: Vec<Change> = (0..64).map(|channel| Bytes(flags(channel), &[1])).collect();
    all.push(To(Field::Kick, ALL));
    list.put((DMA + 0x1E, 1, 0x40), 1056, &all, Ok(0));
    list.see(TABLE + 0x7FF, 1, Ok(1));
    list.put((TABLE + 0x13F, 1, 0x80), 32, &[Bytes(flags(9), &[0x80])], Ok(0x80));
    list.put((DMA + 0x1F, 1, 9), 32, &[Bytes(flags(9), &[0])], Ok(0));
    list.see(TABLE + 0x13F, 1, Ok(0));
    let set = [To(Field::Erq, 0x8000_0001_0000_0483), To(Field::Eei, 0x0000_0004_0000_1005)];
    list.put((DMA + 0x18, 4, 0x0A0B_0C0D), 48, &set, Err(3));
    list.see(DMA + 0x0C, 4, Ok(0x483));
    list.see(DMA + 0x14, 4, Ok(0x1005));
    let left = [To(Field::Int, 0xFFFC_0000), To(Field::Lines(One), 0xFF_FC00)];
    list.put((DMA + 0x1C, 4, 0x1140_0203), 80, &left, Err(3));
    list.see(DMA + 0x24, 4, Ok(0xFFFC_0000));
    list.see(TABLE + 0x5F, 1, Ok(1));
    list.put((DMA + 0x100, 1, 7), 16, &[], Err(3));
    list.put((DMA + 0x13F, 1, 7), 16, &[], Err(3));
}

fn other_registers(list: &mut List) {
    list.case("descriptors: byte 0x1F with START set kicks its channel", 8, 0, 0);
    let kick = |value| To(Field::Kick, value);
    list.put((TABLE, 4, BASE), 32, &[Bytes(0, &[0x80, 0, 0, 0])], Ok(BASE));
    list.put((TABLE + 0x04, 2, 0x0202), 32, &[Bytes(4, &[2, 2])], Ok(0x0202));
    list.put((TABLE + 0x07, 1, 4), 32, &[Bytes(7, &[4])], Ok(4));
    list.put((TABLE + 0x1E, 1, 1), 32, &[Bytes(0x1E, &[1])], Ok(1));
    list.put((TABLE + 0x3E, 2, 1), 48, &[Bytes(0x3E, &[0, 1]), kick(0x02)], Ok(1));
    list.put((TABLE + 0x5C, 4, 0x1_0000), 32, &[Bytes(0x5C, &[0, 1, 0, 0])], Ok(0x1_0000));
    list.put((TABLE + 0x7F, 1, 1), 48, &[Bytes(0x7F, &[1]), kick(0x0A)], Ok(1));
    list.put((TABLE + 0x9D, 4, 0x100), 48, &[Bytes(0x9D, &[0, 0, 1, 0]), kick(0x1A)], Ok(0x100));
    list.see(TABLE + 0x9C, 4, Ok(1));
    list.note("controllers");
    list.put((CONTROLLER0, 4, 1), 16, &[], Ok(0));
    list.put((CONTROLLER0 + 0x04, 4, 1), 16, &[], Ok(0));
    let masks = |value| [To(Field::Imr(Zero), value)];
    list.put(
        (CONTROLLER0 + 0x08, 4, 0xFFFF_0000),
        32,
        &masks(0xFFFF_0000_FFFF_FFFF),
        Ok(0xFFFF_0000),
    );
    list.put((CONTROLLER0 + 0x0C, 4, 0xFF), 32, &masks(0xFFFF_0000_0000_00FF), Ok(0xFF));
    list.put((CONTROLLER0 + 0x0A, 1, 0x12), 32, &masks(0xFFFF_1200_0000_00FF), Err(3));
    list.put((CONTROLLER0 + 0x0C, 2, 0x3456), 32, &masks(0xFFFF_1200_3456_00FF), Err(3));
    list.see(CONTROLLER0 + 0x08, 4, Ok(0xFFFF_1200));
    list.see(CONTROLLER0 + 0x0C, 4, Ok(0x3456_00FF));
    levels(list);
    inputs_and_pending(list);
    refusals(list);
}

fn levels(list: &mut List) {
    let level = |source, value| To(Field::SourceLevel(One, Source::new(source)), value);
    list.put((CONTROLLER1 + 0x40, 1, 3), 32, &[level(0, 3)], Ok(3));
    list.put((CONTROLLER1 + 0x41, 2, 0x0405), 48, &[level(1, 4), level(2, 5)], Err(3));
    list.put((CONTROLLER1 + 0x7E, 4, 0x0102_0304), 48, &[level(62, 1), level(63, 2)], Err(3));
    list.see(CONTROLLER1 + 0x42, 1, Ok(5));
    list.see(CONTROLLER1 + 0x7F, 1, Ok(2));
    let forced = |value, level| [To(Field::Frc(One), value), To(Field::Level, level)];
    let high = 0x8000_0000;
    list.put((CONTROLLER1 + 0x10, 4, high), 48, &forced(0x8000_0000_0000_0000, 2), Ok(high));
    list.put((CONTROLLER1 + 0x14, 4, 5), 48, &forced(0x8000_0000_0000_0005, 5), Ok(5));
    list.put((CONTROLLER1 + 0x18, 2, 0xBEEF), 32, &[To(Field::Iconfig(One), 0xBEEF)], Ok(0xBEEF));
    list.put((CONTROLLER1 + 0x1C, 1, 0x40), 16, &[], Ok(0));
    list.put((CONTROLLER1 + 0x1D, 1, 0x3F), 32, &[To(Field::Imr(One), ALL >> 1)], Ok(0));
    list.see(CONTROLLER1 + 0x08, 4, Ok(0x7FFF_FFFF));
    list.put((CONTROLLER1 + 0x1E, 1, 1), 16, &[], Ok(0));
    list.put((CONTROLLER1 + 0x1F, 1, 1), 16, &[], Ok(0));
}

fn inputs_and_pending(list: &mut List) {
    list.note("inputs, pending, acknowledge");
    list.put((DMA + 0x0C, 4, 1), 32, &[To(Field::Erq, 1)], Ok(1));
    let standing = 0x8000_0000_0000_0001;
    let given = [
        To(Field::Standing, standing),
        To(Field::Kick, 0x1B),
        To(Field::Lines(Zero), 0xFF),
        To(Field::Lines(One), 2),
        To(Field::Lines(Two), 2),
    ];
    let call = Call::Inputs { standing, lines: [0xFF_FFFF, 2, 3] };
    list.accepted(call, Answered::default(), 96, &given);
    list.see(CONTROLLER0 + 0x04, 4, Ok(0xFF));
    list.pending(63, 5, 32, 5);
    list.note("document 02, [1]: a second count is added; 0 changes nothing, and has its group");
    list.pending(63, 3, 32, 8);
    list.pending(63, 0, 16, 8);
    list.pending(63, u32::MAX - 8, 32, u32::MAX);
    list.refused(Call::Pending { channel: 63, count: 1 }, 14);
    list.pending(63, 0, 16, u32::MAX);
    list.pending(62, u32::MAX, 32, u32::MAX);
    let taken = [To(Field::Taken(One, Source::new(2)), 1)];
    list.acknowledge(4, Some((5, 0x82)), 32, &taken);
    list.acknowledge(7, None, 16, &[]);
}

fn refusals(list: &mut List) {
    list.note("refusals 1, 2, 3, 4");
    list.put_refused((DMA, 3, 1), 1, 1);
    list.put_refused((0xFC05_4000, 4, 1), 2, 2);
    list.put_refused((0xFC04_3FFF, 1, 1), 2, 2);
    list.put_refused((DMA + 0x38, 4, 1), 3, 3);
    list.put_refused((DMA + 0x08, 2, 1), 3, 3);
    list.put_refused((TABLE + 0x7FE, 4, 1), 4, 4);
    list.put_refused((CONTROLLER2 + 0x0B, 2, 1), 4, 3);
    let write = Call::Write { address: DMA, size: 4, value: 1 };
    list.note("refusal 6: an odd used length; one past the journal");
    list.lend(16, 256, 8);
    list.refused(write, 6);
    list.lend(16, 256, 272);
    list.refused(Call::Inputs { standing: 0, lines: [0; 3] }, 6);
    list.note("refusal 8");
    list.lend(16, 256, 0);
    list.refused(Call::Pending { channel: 64, count: 1 }, 8);
    list.note("refusal 14: after 6 and 8, before 11");
    let past = Call::Pending { channel: 63, count: 1 };
    list.lend(16, 256, 8);
    list.refused(past, 6);
    list.lend(16, 32, 32);
    list.refused(past, 14);
    list.refused(Call::Pending { channel: 63, count: 0 }, 11);
    list.note("refusal 11: the journal is zero from the used length on");
    list.lend(16, 32, 16);
    list.refused(write, 11);
    list.note("refusal 12");
    list.lend(16, 256, 0);
    list.refused(Call::TakeBack, 12);
}

fn p10(list: &mut List) {
    list.case("P10: controller 2 source 63 forced and masked, level 7", 8, 0, 0);
    let source = Source::new(63);
    list.put((CONTROLLER2 + 0x7F, 1, 7), 32, &[To(Field::SourceLevel(Two, source), 7)], Ok(7));
    let forced = [To(Field::Frc(Two), 0x8000_0000_0000_0000), To(Field::Level, 7)];
    list.put((CONTROLLER2 + 0x10, 4, 0x8000_0000), 48, &forced, Ok(0x8000_0000));
    for (ipl, taken) in [(7, 1), (6, 2)] {
        list.acknowledge(ipl, Some((7, 255)), 32, &[To(Field::Taken(Two, source), taken)]);
    }
}

// ---- passes: runs of a channel with one request, over a window 00 01 02 ..

/// A pass, by its descriptor and CR.
#[derive(Clone, Copy)]
struct Pass {
    cr: u32,
    attr: u16,
    nbytes: u32,
    citer: u16,
    biter: u16,
    csr: u16,
    from: u32,
    to: u32,
    step: i16,
}

impl Pass {
    /// The first of two minor loops, from and to an offset of the window.
    fn new(attr: u16, nbytes: u32, from: u32, to: u32, step: i16) -> Pass {
        let (from, to) = (BASE + from, BASE + to);
        Pass { cr: 0, attr, nbytes, citer: 2, biter: 2, csr: 0, from, to, step }
    }

    fn tcd(&self) -> Tcd {
        Tcd {
            saddr: self.from,
            attr: self.attr,
            soff: self.step,
            nbytes: self.nbytes,
            daddr: self.to,
            citer: self.citer,
            doff: self.step,
            biter: self.biter,
            csr: self.csr,
            ..Tcd::default()
        }
    }

    fn begin(&self, list: &mut List, what: &str) {
        list.case(what, 32, 0, 1);
        list.set(Bytes(0, &self.tcd().to_bytes()));
        list.set(To(Field::Cr, self.cr.into()));
        list.set(To(Field::Erq, CHANNEL.bit()));
        list.set(To(Field::Kick, CHANNEL.bit()));
        list.set(To(Field::Pending(CHANNEL), 1));
        list.lend(16, 1024, 0);
    }

    /// The run is refused.
    fn refused(&self, list: &mut List, what: &str, status: u8) {
        self.begin(list, what);
        list.refused(Call::Run(AT_ONCE), status);
    }

    /// The run is accepted: what it makes of `saddr`, `daddr`, count and `csr`
    /// (offsets of the window), how many records the pass itself writes, the
    /// fields it changes besides KICK and the pending count, and the bytes at
    /// an offset of the window.
    fn moves(
        &self,
        list: &mut List,
        what: &str,
        (saddr, daddr, citer, csr): (u32, u32, u16, u16),
        records: u64,
        fields: &[Change],
        (at, bytes): (usize, &[u8]),
    ) {
        self.begin(list, what);
        let after = Tcd { saddr: BASE + saddr, daddr: BASE + daddr, citer, csr, ..self.tcd() };
        let mut changes = vec![To(Field::Kick, 0), To(Field::Pending(CHANNEL), 0)];
        changes.extend(fields);
        // Each field that differs has a record, and the group its end.
        let added = RECORD as u64 * (records + changes.len() as u64 + 1);
        let tcd = after.to_bytes();
        changes.push(Bytes(0, &tcd));
        changes.push(Bytes(WINDOW_AT + at, bytes));
        list.accepted(Call::Run(AT_ONCE), Answered::default(), added, &changes);
    }
}

fn passes(list: &mut List) {
    let minor = Pass::new(0x0000, 0xBFFF_FC08, 0x00, 0x10, 1);
    let eight = [0, 1, 2, 3, 4, 5, 6, 7];
    let set = Pass { cr: CR_EMLM, ..minor };
    set.moves(list, "P6, CR bit 7 set", (0x07, 0x18, 1, 0x40), 12, &[], (0x10, &eight));
    minor.refused(list, "P6, CR bit 7 clear: 4,194,304 bytes leave the window", 9);
    let bytes = Pass::new(0x0002, 3, 0x10, 0x00, 1);
    bytes.moves(list, "P7, sizes 1 to 4, 3 bytes", (0x13, 0x00, 1, 0x40), 4, &[], (0, &[]));
    let words = Pass::new(0x0201, 6, 0x10, 0x00, 4);
    let halves = [0x10, 0x11, 2, 3, 0x12, 0x13, 6, 7, 0x14, 0x15, 10, 11, 0x16, 0x17, 14, 15];
    words.moves(list, "P8, sizes 4 to 2, 6 bytes", (0x18, 0x10, 1, 0x40), 8, &[], (0, &halves));
    half_flags(list);
    overlaps(list);
    let burst = Pass::new(0x0404, 16, 0x10, 0x00, 16);
    let upper: Vec<u8> = (0x10..0x20).collect();
    burst.moves(list, "a burst of 16", (0x20, 0x10, 1, 0x40), 8, &[], (0, &upper));
    Pass::new(0x0202, 8, 0x1C, 0x00, 4).refused(list, "refusal 9: a read past the window", 9);
    Pass::new(0x0500, 32, 0x00, 0x00, 1).refused(list, "refusal 10: 32 bytes, staging of 16", 10);
}

fn half_flags(list: &mut List) {
    let pass = |citer, biter| Pass { citer, biter, csr: 4, ..Pass::new(0, 1, 0x10, 0x00, 1) };
    let moved = (0, &[0x10][..]);
    let majors = [To(Field::Majors(CHANNEL), 1)];
    pass(1, 1).moves(list, "P9, biter 1", (0x11, 0x01, 1, 0x84), 9, &majors, moved);
    pass(4, 5).moves(list, "P9, biter 5, new count 3", (0x11, 0x01, 3, 0x44), 5, &[], moved);
    let flagged = [To(Field::Int, 1), To(Field::Lines(Zero), 0x100)];
    pass(3, 5).moves(list, "P9, biter 5, new count 2", (0x11, 0x01, 2, 0x44), 5, &flagged, moved);
}

fn overlaps(list: &mut List) {
    let up = Pass::new(0x0000, 8, 0x00, 0x01, 1);
    up.moves(list, "overlap upwards, 1 to 1", (0x08, 0x09, 1, 0x40), 12, &[], (1, &[0; 8]));
    let down = Pass::new(0x0000, 8, 0x01, 0x00, 1);
    let moved = [1, 2, 3, 4, 5, 6, 7, 8];
    down.moves(list, "overlap downwards, 1 to 1", (0x09, 0x08, 1, 0x40), 12, &[], (0, &moved));
    let words = Pass::new(0x0202, 8, 0x00, 0x02, 4);
    let moved = [0, 1, 2, 3, 2, 3, 6, 7];
    words.moves(list, "overlap upwards, 4 to 4", (0x08, 0x0A, 1, 0x40), 6, &[], (2, &moved));
    let halves = Pass::new(0x0001, 8, 0x00, 0x01, 1);
    let moved = [0, 2, 4, 6, 7];
    halves.moves(list, "overlap upwards, 1 to 2", (0x08, 0x05, 1, 0x40), 8, &[], (1, &moved));
}

// ---- 'Run only', and its group damaged

const BEFORE: [u8; 8] = [0x11, 0x22, 0x33, 0x44, 0, 0, 0, 0];
const AFTER: [u8; 8] = [0x11, 0x22, 0x33, 0x44, 0x11, 0x22, 0x33, 0x44];

const DESCRIPTOR_BEFORE: [u128; 2] =
    [0x8000_0000_0202_0004_0000_0004_0000_0000, 0x8000_0004_0001_0004_0000_0000_0001_0001];
const DESCRIPTOR_AFTER: [u128; 2] =
    [0x8000_0004_0202_0004_0000_0004_0000_0000, 0x8000_0008_0001_0004_0000_0000_0001_0080];

const LISTING: [u128; 12] = [
    0x4a520004800000040000000000000000,
    0x4a520104000000000000000080000000,
    0x4a520104000000100000000080000004,
    0x4a520102000000140000000000000001,
    0x4a5201020000001e0000000000000001,
    0x4a520108000000008000000402020004,
    0x4a520108000000080000000400000000,
    0x4a520108000000108000000800000004,
    0x4a520108000000180000000000010040,
    0x4a520208000000050000000000000001,
    0x4a520208000000800000000000000000,
    0x4a52030000000000000000000000000b,
];

/// What stands in the place of a record of the listing.
const DAMAGE: [(&str, usize, u128); 23] = [
    ("no valid end, its mark", 11, 0x4a53030000000000000000000000000b),
    ("no valid end, its kind", 11, 0x4a52020000000000000000000000000b),
    ("no valid end, its width", 11, 0x4a52030100000000000000000000000b),
    ("no valid end, its place", 11, 0x4a52030000000001000000000000000b),
    ("an end inside the group", 5, 0x4a520300000000000000000000000005),
    ("a group longer than the used part", 11, 0x4a52030000000000000000000000000c),
    ("a group of 2^64 - 1 records", 11, 0x4a52030000000000ffffffffffffffff),
    ("wrong mark, its first byte", 3, 0x4b520102000000140000000000000001),
    ("wrong mark, its second byte", 3, 0x4a510102000000140000000000000001),
    ("wrong kind", 3, 0x4a520402000000140000000000000001),
    ("wrong width of a memory store", 0, 0x4a520008800000000000000000000000),
    ("wrong width of a descriptor store", 3, 0x4a520103000000140000000000000001),
    ("wrong width of a field", 9, 0x4a520204000000050000000000000001),
    ("a place outside the table", 3, 0x4a520102000007ff0000000000000001),
    ("a place below the window", 0, 0x4a5200047fffffff0000000000000000),
    ("a place past the window", 0, 0x4a520004800000050000000000000000),
    ("no such field, between two", 9, 0x4a5202080000000a0000000000000001),
    ("no such field, past the last", 9, 0x4a520208000003000000000000000001),
    ("a value too wide for its width, memory", 0, 0x4a520004800000040000000100000000),
    ("a value too wide for its width, table", 3, 0x4a520102000000140000000000010000),
    ("a value too wide for its field, CR", 9, 0x4a520208000000000000000100000000),
    ("a value too wide for its field, ICONFIG", 9, 0x4a520208000000130000000000010000),
    ("a value too wide for its field, level", 9, 0x4a520208000000080000000000000100),
];

fn bytes(records: &[u128]) -> Vec<u8> {
    records.iter().flat_map(|record| record.to_be_bytes()).collect()
}

/// What the run changes, its records apart.
fn ran<'a>(descriptor: &'a [u8]) -> [Change<'a>; 4] {
    let majors = To(Field::Majors(CHANNEL), 1);
    [Bytes(0, descriptor), To(Field::Kick, 0), majors, Bytes(WINDOW_AT, &AFTER)]
}

/// What taking the run back changes.
fn undone<'a>(descriptor: &'a [u8]) -> [Change<'a>; 4] {
    let majors = To(Field::Majors(CHANNEL), 0);
    [Bytes(0, descriptor), To(Field::Kick, 1), majors, Bytes(WINDOW_AT, &BEFORE)]
}

fn run_only(list: &mut List) {
    list.case("Run only: the run, its journal, and taken back", 8, 0, 0);
    let (before, after) = (bytes(&DESCRIPTOR_BEFORE), bytes(&DESCRIPTOR_AFTER));
    for change in undone(&before) {
        list.set(change);
    }
    list.lend(4, 256, 0);
    list.accepted(Call::Run(AT_ONCE), Answered::default(), 192, &ran(&after));
    list.change(true, Bytes(JOURNAL_AT, &bytes(&LISTING)));
    list.refused(Call::TakeBack, 0);
    list.rows(&[eight_bytes(true, USED_AT, 0)]);
    for change in undone(&before) {
        list.change(true, change);
    }
}

fn damage(list: &mut List) {
    list.case("Run only, made by hand: each damage is refused, then repaired", 8, 0, 0);
    let (before, after) = (bytes(&DESCRIPTOR_BEFORE), bytes(&DESCRIPTOR_AFTER));
    for change in ran(&after) {
        list.set(change);
    }
    list.set(Bytes(JOURNAL_AT, &bytes(&LISTING)));
    list.lend(4, 256, 192);
    for (what, n, record) in DAMAGE {
        list.note(what);
        let at = JOURNAL_AT + RECORD * n;
        list.set(Bytes(at, &bytes(&[record])));
        list.refused(Call::TakeBack, 13);
        list.set(Bytes(at, &bytes(&[LISTING[n]])));
    }
    list.note("sound");
    list.refused(Call::TakeBack, 0);
    list.rows(&[eight_bytes(true, USED_AT, 0)]);
    for change in undone(&before) {
        list.change(true, change);
    }
}

// ---- document 02, [10]: as the chip does it, over a window 00 01 02 ..

const LOW: Channel = Channel::new(2);
const HIGH: Channel = Channel::new(5);
const PACED: Channel = Channel::PACED;

/// Where both channels put their bytes.
const TO: usize = 0x10;

/// A byte from an offset of the window, so many loops long.
fn byte(from: u32, loops: u16, control: u16) -> Tcd {
    Tcd {
        saddr: BASE + from,
        nbytes: 1,
        daddr: BASE + TO as u32,
        citer: loops,
        biter: loops,
        csr: control,
        ..Tcd::default()
    }
}

/// The descriptor after so many loops that end no major loop.
fn after(tcd: &Tcd, loops: u16) -> Vec<u8> {
    Tcd { citer: tcd.citer - loops, csr: csr::ACTIVE, ..*tcd }.to_bytes().to_vec()
}

fn table(channel: Channel) -> usize {
    TCD * usize::from(channel.number())
}

/// A case with these descriptors, of which all requests are enabled.
fn begin_chip(list: &mut List, what: &str, tcds: &[(Channel, Tcd)]) {
    list.case_in(Mode::Chip, what, 32, 0, 1);
    for (channel, tcd) in tcds {
        list.set(Bytes(table(*channel), &tcd.to_bytes()));
    }
    let all = tcds.iter().fold(0, |mask, (channel, _)| mask | channel.bit());
    list.set(To(Field::Erq, all));
}

/// A run or service that makes so many passes, each with one store to the
/// window and four to its descriptor: the fields that change, and what else
/// does.
fn served(list: &mut List, call: Call, passes: u64, fields: &[Change], rest: &[Change]) {
    let added = RECORD as u64 * (5 * passes + fields.len() as u64 + 1);
    let changes = [fields, rest].concat();
    list.accepted(call, Answered::default(), added, &changes);
}

fn as_the_chip(list: &mut List) {
    priorities(list);
    starts(list);
    requests(list);
    paced(list);
    damaged_priorities(list);
}

fn priorities(list: &mut List) {
    list.case_in(Mode::Chip, "[10], priorities: six bits, at first the channel's number", 8, 0, 0);
    let to = |channel: u8, value| To(Field::Priority(Channel::new(channel)), value);
    list.see(DMA + 0x100, 1, Ok(0));
    list.see(DMA + 0x13F, 1, Ok(63));
    list.put((DMA + 0x105, 1, 0xFF), 32, &[to(5, 63)], Ok(63));
    list.put((DMA + 0x105, 1, 0x7F), 16, &[], Ok(63));
    list.put((DMA + 0x13F, 1, 0x40), 32, &[to(63, 0)], Ok(0));
    for (offset, size) in
        [(0x0FF, 1), (0x0FF, 2), (0x0FE, 4), (0x100, 2), (0x100, 4), (0x13F, 2), (0x140, 1)]
    {
        list.put_refused((DMA + offset, size, 1), 3, 3);
    }
    list.note("an image that holds more: the low six bits count, and are laid down by an act");
    list.set(to(6, 0xC9));
    list.see(DMA + 0x106, 1, Ok(9));
    list.refused(Call::Write { address: DMA + 0x38, size: 4, value: 1 }, 3);
    list.put((DMA + 0x107, 1, 1), 32, &[to(6, 9), to(7, 1)], Ok(1));
    list.set(to(6, 0x49));
    list.put((DMA + 0x106, 1, 0x89), 16, &[to(6, 9)], Ok(9));
}

/// The records of two passes: first channel 5's, then channel 2's.
const TWO_PASSES: [u128; 11] = [
    0x4a520001800000100000000000000010,
    0x4a520104000000a00000000080000005,
    0x4a520104000000b00000000080000010,
    0x4a520102000000b40000000000000002,
    0x4a520102000000be0000000000000001,
    0x4a520001800000100000000000000005,
    0x4a520104000000400000000080000002,
    0x4a520104000000500000000080000010,
    0x4a520102000000540000000000000002,
    0x4a5201020000005e0000000000000001,
    0x4a52030000000000000000000000000a,
];

fn starts(list: &mut List) {
    let run = Call::Run(AT_ONCE);
    let three = byte(2, 3, csr::START);
    begin_chip(list, "[10], one minor loop a START", &[(LOW, three)]);
    let moved = Bytes(WINDOW_AT + TO, &[2]);
    served(list, run, 1, &[], &[Bytes(table(LOW), &after(&three, 1)), moved]);
    served(list, run, 0, &[], &[]);
    let (low, high) = (byte(2, 2, csr::START), byte(5, 2, csr::START));
    let (low_after, high_after) = (after(&low, 1), after(&high, 1));
    let both = [Bytes(table(LOW), &low_after), Bytes(table(HIGH), &high_after)];
    // Which channel came last shows in the byte.
    for (what, priority, last) in [
        ("[10], the higher number first, where priorities are fresh", 2, 2),
        ("[10], the higher priority first", 6, 5),
        ("[10], the higher number first among equals", 5, 2),
    ] {
        begin_chip(list, what, &[(LOW, low), (HIGH, high)]);
        list.set(To(Field::Priority(LOW), priority));
        served(list, run, 2, &[], &[both[0], both[1], Bytes(WINDOW_AT + TO, &[last])]);
        if priority == 2 {
            list.change(true, Bytes(JOURNAL_AT, &bytes(&TWO_PASSES)));
        }
    }
}

fn requests(list: &mut List) {
    let run = Call::Run(AT_ONCE);
    let plain = byte(2, 9, 0);
    let pending = |channel, count| To(Field::Pending(channel), count);
    begin_chip(list, "[10], a loop for each of two requests", &[(LOW, plain)]);
    list.set(pending(LOW, 2));
    let moved = Bytes(WINDOW_AT + TO, &[2]);
    let twice = after(&plain, 2);
    served(list, run, 2, &[pending(LOW, 0)], &[Bytes(table(LOW), &twice), moved]);
    let once = after(&plain, 1);
    let tcds = [(LOW, Tcd { csr: csr::START, ..plain }), (HIGH, byte(5, 0, 0))];
    begin_chip(list, "[10], channel 5 answers no, and is passed over", &tcds);
    list.set(pending(HIGH, 3));
    list.set(To(Field::Kick, HIGH.bit()));
    let fields = [To(Field::Kick, 0), pending(HIGH, 2)];
    served(list, run, 1, &fields, &[Bytes(table(LOW), &once), moved]);
    let tcds = [(LOW, Tcd { csr: csr::START, ..plain })];
    begin_chip(
        list,
        "[10], a service without a KICK bit makes no run, one with another's does",
        &tcds,
    );
    served(list, Call::Service(AT_ONCE), 0, &[], &[]);
    list.set(To(Field::Kick, HIGH.bit()));
    served(list, Call::Service(AT_ONCE), 1, &[], &[Bytes(table(LOW), &once), moved]);
    begin_chip(list, "[10], a busy channel waits, and is not deferred", &tcds);
    list.set(To(Field::Busy(LOW), 100));
    list.set(To(Field::Kick, LOW.bit()));
    served(list, Call::Run(Time { now: 99, pace: 0 }), 0, &[], &[]);
    let fields = [To(Field::Kick, 0)];
    let rest = [Bytes(table(LOW), &once), moved];
    served(list, Call::Run(Time { now: 100, pace: 0 }), 1, &fields, &rest);
}

fn paced(list: &mut List) {
    let run = Call::Run(Time { now: 1000, pace: 7 });
    let paced = byte(3, 9, 0);
    let moved = Bytes(WINDOW_AT + TO, &[3]);
    let once = after(&paced, 1);
    let until = |time| [To(Field::Deadline, time), To(Field::Busy(PACED), time)];
    begin_chip(list, "[10], channel 35 keeps its pace, and its count", &[(PACED, paced)]);
    list.set(To(Field::Pending(PACED), 4));
    served(list, run, 1, &until(1007), &[Bytes(table(PACED), &once), moved]);
    served(list, run, 0, &[], &[]);
    let started = Tcd { csr: csr::START, ..paced };
    begin_chip(list, "[10], channel 35 with START has no pace", &[(PACED, started)]);
    served(list, run, 1, &[], &[Bytes(table(PACED), &once), moved]);
    begin_chip(list, "[10], channel 35 answers no: 0 bytes", &[(PACED, byte(3, 0, 0))]);
    list.set(To(Field::Standing, PACED.bit()));
    served(list, run, 0, &until(1000), &[]);
}

fn damaged_priorities(list: &mut List) {
    list.case_in(Mode::Chip, "[10], records of priorities, made by hand", 8, 0, 0);
    let end = 0x4a520300000000000000000000000001;
    let one = |record| bytes(&[record, end]);
    for (what, record) in [
        ("a priority of seven bits", 0x4a520208000003050000000000000040),
        ("no such field, past the last", 0x4a520208000003400000000000000001),
    ] {
        list.note(what);
        list.set(Bytes(JOURNAL_AT, &one(record)));
        list.lend(4, 256, 32);
        list.refused(Call::TakeBack, 13);
    }
    list.note("sound");
    list.set(Bytes(JOURNAL_AT, &one(0x4a52020800000305000000000000003f)));
    list.lend(4, 256, 32);
    list.refused(Call::TakeBack, 0);
    list.rows(&[eight_bytes(true, USED_AT, 0)]);
    list.change(true, To(Field::Priority(HIGH), 63));
    list.case("[10], the same record in the old mode", 8, 0, 0);
    list.set(Bytes(JOURNAL_AT, &one(0x4a52020800000305000000000000003f)));
    list.lend(4, 256, 32);
    list.refused(Call::TakeBack, 13);
}
