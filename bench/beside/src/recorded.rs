//! Lists of calls with what they answer and leave, in rows of 16 bytes, and
//! their player. `FORMAT` says what a row means; it stands at the top of each
//! list.

use crate::call::Call;
use crate::difference;
use crate::world::{seen, World};
use kounpheray::{Device, Field, Mode, Time, IMAGE};
use std::ops::Range;

pub const FORMAT: &str = "\
#
# A line that is empty or begins with '#' says nothing to the player. Each
# other is one row of 16 bytes in hex. Numbers are big-endian; bytes that are
# not named are 0. The first byte says what the row is.
#
# Calls are made on 25,944 bytes. All of them are compared after each call,
# also those past what the call was lent:
#
#      0  the device image, as docs/ABI.md lays it out
#   8720  room for a window of 256 bytes
#   8976  room for staging of 512 bytes
#   9488  room for a journal of 16,384 bytes
#  25872  nine numbers of eight bytes: the journal's used length; how many
#         bytes of journal, of staging and of window are lent; the window's
#         base; the standing requests and the lines of controllers 0, 1 and 2
#         that inputs give
#
#  01 A case begins: a fresh device. Byte 1: 1 where masks are ignored.
#     Bytes 2..3: the case's number. 4..7: base. 8..11: the window's length.
#     12, 13: a and b; byte i of the window's room is (a + b x i) mod 256.
#     14: the byte that staging and journal are filled with. 15: the mode, 0
#     the old one, 1 as the chip does it. 16,000 bytes of journal and 500 of
#     staging are lent; the other numbers are 0.
#  02 Set eight bytes.  Bytes 4..7: their offset. 8..15: the bytes.
#  10 Read.        Byte 1: size. 2: status. 4..7: address. 12..15: the value.
#  11 Write.       Byte 1: size. 2: status. 4..7: address. 12..15: the value.
#  12 Inputs.      Byte 2: status.
#  13 Pending.     Byte 1: channel. 2: status. 12..15: the count.
#  14 Run.         Byte 2: status. 4..7: pace. 8..15: now.
#  15 Service.     As run.
#  16 Acknowledge. Byte 1: ipl. 2: status. 6: level, 7: vector; both 0 if
#     none was found.
#  17 Take back.   Byte 2: status.
#  20 After the call eight bytes differ from before it. Bytes 4..7: their
#     offset. 8..15: the bytes.
#
# The rows 20 behind a call tell all that differs, but for what document 01
# says of every call under 'Refusal numbers': staging that is zero, journal
# bytes that are zero after a refusal or a take-back. After an accepted act
# its records and the used length are compared only where rows tell them. An
# accepted act is also taken back, which leaves all as before it, of a priority
# the low six bits, and made again. A refusal answers the used length that was
# given.
";

/// How much of a case's journal and staging is lent if no row says otherwise.
pub const JOURNAL: usize = 16_000;
pub const STAGING: usize = 500;

/// The rooms, and where they and the numbers begin.
pub const WINDOW_ROOM: usize = 256;
const STAGING_ROOM: usize = 512;
const JOURNAL_ROOM: usize = 16_384;
pub const WINDOW_AT: usize = IMAGE;
const STAGING_AT: usize = WINDOW_AT + WINDOW_ROOM;
pub const JOURNAL_AT: usize = STAGING_AT + STAGING_ROOM;
pub const USED_AT: usize = JOURNAL_AT + JOURNAL_ROOM;
pub const JOURNAL_LENT_AT: usize = USED_AT + 8;
pub const STAGING_LENT_AT: usize = USED_AT + 16;
const MASKS_AT: usize = USED_AT + 40;
const ALL: usize = USED_AT + 72;

pub type Row = [u8; 16];

/// How a case begins.
#[derive(Clone, Copy, Debug)]
pub struct Begin {
    pub mode: Mode,
    pub ignore_masks: bool,
    pub number: u16,
    pub base: u32,
    pub length: u32,
    pub first: u8,
    pub step: u8,
    pub filled: u8,
}

impl Begin {
    pub fn row(&self) -> Row {
        let mut row = [0; 16];
        row[0] = 0x01;
        row[1] = u8::from(self.ignore_masks);
        row[2..4].copy_from_slice(&self.number.to_be_bytes());
        row[4..8].copy_from_slice(&self.base.to_be_bytes());
        row[8..12].copy_from_slice(&self.length.to_be_bytes());
        row[12] = self.first;
        row[13] = self.step;
        row[14] = self.filled;
        row[15] = self.mode.number();
        row
    }

    fn from_row(row: &Row) -> Begin {
        Begin {
            mode: if row[15] == 1 { Mode::Chip } else { Mode::Old },
            ignore_masks: row[1] == 1,
            number: number(&row[2..4]) as u16,
            base: number(&row[4..8]) as u32,
            length: number(&row[8..12]) as u32,
            first: row[12],
            step: row[13],
            filled: row[14],
        }
    }

    /// The window's room, of which the window is the first part.
    pub fn room(&self) -> Vec<u8> {
        let (first, step) = (usize::from(self.first), usize::from(self.step));
        (0..WINDOW_ROOM).map(|at| (first + step * at) as u8).collect()
    }

    pub fn window(&self) -> Vec<u8> {
        self.room()[..self.length as usize].to_vec()
    }

    pub fn device(&self) -> Device {
        Device::builder().mode(self.mode).ignore_masks(self.ignore_masks).build()
    }
}

fn number(bytes: &[u8]) -> u64 {
    bytes.iter().fold(0, |value, byte| value << 8 | u64::from(*byte))
}

fn row(kind: u8, one: u8, status: u8, four: u32, eight: u64) -> Row {
    let mut row = [0; 16];
    row[0] = kind;
    row[1] = one;
    row[2] = status;
    row[4..8].copy_from_slice(&four.to_be_bytes());
    row[8..16].copy_from_slice(&eight.to_be_bytes());
    row
}

/// A row that sets eight bytes (02) or tells them (20).
pub fn eight_bytes(told: bool, at: usize, eight: u64) -> Row {
    row(if told { 0x20 } else { 0x02 }, 0, 0, at as u32, eight)
}

/// Where a field stands.
pub fn place(field: Field) -> usize {
    2064 + 8 * usize::from(field.number())
}

/// The rows that lead from one image and window to another.
pub fn changes(told: bool, before: (&[u8], &[u8]), after: (&[u8], &[u8])) -> Vec<Row> {
    let mut rows = Vec::new();
    for (first, old, new) in [(0, before.0, after.0), (WINDOW_AT, before.1, after.1)] {
        for (n, (old, new)) in old.chunks(8).zip(new.chunks(8)).enumerate() {
            if old != new {
                rows.push(eight_bytes(told, first + 8 * n, number(new)));
            }
        }
    }
    rows
}

/// What a call answers, where that is told.
#[derive(Clone, Copy, Debug, Default, PartialEq, Eq)]
pub struct Answered {
    pub status: u8,
    pub value: u32,
    pub level: u8,
    pub vector: u8,
}

/// The rows of one call with its answer.
pub fn call_rows(call: Call, answered: Answered) -> Vec<Row> {
    let status = answered.status;
    let time = |kind, time: Time| row(kind, 0, status, time.pace as u32, time.now);
    let of_call = match call {
        Call::Read { address, size } => {
            row(0x10, size as u8, status, address, u64::from(answered.value))
        }
        Call::Write { address, size, value } => {
            row(0x11, size as u8, status, address, u64::from(value))
        }
        Call::Inputs { .. } => row(0x12, 0, status, 0, 0),
        Call::Pending { channel, count } => row(0x13, channel as u8, status, 0, u64::from(count)),
        Call::Run(when) => time(0x14, when),
        Call::Service(when) => time(0x15, when),
        Call::Acknowledge { ipl } => {
            let found = u32::from(answered.level) << 8 | u32::from(answered.vector);
            row(0x16, ipl, status, found, 0)
        }
        Call::TakeBack => row(0x17, 0, status, 0, 0),
    };
    let mut rows = Vec::new();
    if let Call::Inputs { standing, lines } = call {
        for (n, mask) in [standing, lines[0], lines[1], lines[2]].into_iter().enumerate() {
            rows.push(eight_bytes(false, MASKS_AT + 8 * n, mask));
        }
    }
    rows.push(of_call);
    rows
}

/// Rows as lines of a list.
pub fn lines(rows: &[Row]) -> String {
    rows.iter().map(|row| difference::hex(row) + "\n").collect()
}

/// Writes a list to the file that the first argument names, or to standard
/// output.
pub fn written(text: &str) {
    match std::env::args().nth(1) {
        None => print!("{text}"),
        Some(path) => {
            if let Err(why) = std::fs::write(&path, text) {
                eprintln!("{path}: {why}");
                std::process::exit(1);
            }
        }
    }
}

/// The rows of a file.
pub fn read(text: &str) -> Vec<Row> {
    text.lines()
        .filter(|line| !line.is_empty() && !line.starts_with('#'))
        .map(|line| {
            assert_eq!(line.len(), 32, "a row has 32 digits: {line}");
            let mut row = [0; 16];
            for (n, byte) in row.iter_mut().enumerate() {
                *byte = u8::from_str_radix(&line[2 * n..2 * n + 2], 16).expect("hex digits");
            }
            row
        })
        .collect()
}

/// Plays a list on the engine; answers how many cases and calls it had, or
/// says of the first answer or byte that is not as told in which case it is.
pub fn play(rows: &[Row]) -> Result<(u64, u64), String> {
    let mut player = Player { is: vec![0; ALL], told: None, case: 0, cases: 0, calls: 0 };
    for row in rows {
        player.row(row).map_err(|told| format!("case {}: {told}", player.case))?;
    }
    player.compare().map_err(|told| format!("case {}: {told}", player.case))?;
    Ok((player.cases, player.calls))
}

/// An act that was accepted is taken back, which leaves all as before it but
/// for the journal's unused room and a priority's upper bits, and made again,
/// which leaves all as it did.
fn taken_back_and_made_again(before: &World, after: &World, call: Call) -> Result<(), String> {
    let mut world = after.clone();
    let answer = world.checked(Call::TakeBack)?;
    let used = before.used as usize;
    let as_before = answer.status() == 0
        && world.used == before.used
        && world.image == seen(&before.image)
        && world.window == before.window
        && world.journal[..used] == before.journal[..used];
    if !as_before {
        return Err(format!("{call:?}, taken back, leaves something else than stood before"));
    }
    world.staging.clone_from(&before.staging);
    world.checked(call)?;
    if world != *after {
        return Err(format!("{call:?}, taken back and made again, leaves something else"));
    }
    Ok(())
}

/// `is`: the bytes that calls are made on. `told`: what they should be after
/// the last call.
struct Player {
    is: Vec<u8>,
    told: Option<Vec<u8>>,
    case: u16,
    cases: u64,
    calls: u64,
}

impl Player {
    fn row(&mut self, row: &Row) -> Result<(), String> {
        if row[0] == 0x20 {
            let told = self.told.as_mut().ok_or("no call stands before what it left")?;
            return lay(told, row);
        }
        self.compare()?;
        match row[0] {
            0x01 => self.begin(&Begin::from_row(row)),
            0x02 => lay(&mut self.is, row),
            _ => self.call(row),
        }
    }

    fn begin(&mut self, begin: &Begin) -> Result<(), String> {
        if begin.length as usize > WINDOW_ROOM {
            return Err("a window that is longer than its room".to_string());
        }
        self.case = begin.number;
        self.cases += 1;
        self.is.fill(0);
        self.is[..IMAGE].copy_from_slice(&begin.device().image());
        self.is[WINDOW_AT..STAGING_AT].copy_from_slice(&begin.room());
        self.is[STAGING_AT..USED_AT].fill(begin.filled);
        let numbers = [JOURNAL as u64, STAGING as u64, begin.length.into(), begin.base.into()];
        for (n, number) in numbers.into_iter().enumerate() {
            self.put(USED_AT + 8 + 8 * n, number);
        }
        Ok(())
    }

    fn put(&mut self, at: usize, value: u64) {
        self.is[at..at + 8].copy_from_slice(&value.to_be_bytes());
    }

    /// The number with this place among the nine.
    fn given(&self, n: usize) -> u64 {
        number(&self.is[USED_AT + 8 * n..USED_AT + 8 * n + 8])
    }

    /// So many bytes of a room as its number says.
    fn lent(&self, room: Range<usize>, n: usize) -> Result<Vec<u8>, String> {
        let all = &self.is[room];
        let lent = all.get(..self.given(n) as usize).ok_or("more is lent than there is room")?;
        Ok(lent.to_vec())
    }

    /// What a call is lent.
    fn world(&self) -> Result<World, String> {
        Ok(World {
            image: self.is[..IMAGE].to_vec(),
            base: self.given(4) as u32,
            window: self.lent(WINDOW_AT..STAGING_AT, 3)?,
            staging: self.lent(STAGING_AT..JOURNAL_AT, 2)?,
            journal: self.lent(JOURNAL_AT..USED_AT, 1)?,
            used: self.given(0),
        })
    }

    fn call_of(&self, row: &Row) -> Result<Call, String> {
        let (four, eight) = (number(&row[4..8]) as u32, number(&row[8..16]));
        let (address, size, value) = (four, u32::from(row[1]), eight as u32);
        let time = Time { now: eight, pace: u64::from(four) };
        Ok(match row[0] {
            0x10 => Call::Read { address, size },
            0x11 => Call::Write { address, size, value },
            0x12 => Call::Inputs {
                standing: self.given(5),
                lines: [self.given(6), self.given(7), self.given(8)],
            },
            0x13 => Call::Pending { channel: size, count: value },
            0x14 => Call::Run(time),
            0x15 => Call::Service(time),
            0x16 => Call::Acknowledge { ipl: row[1] },
            0x17 => Call::TakeBack,
            kind => return Err(format!("no row begins with {kind:02x}")),
        })
    }

    /// Makes a call. What it leaves of staging and journal is held to document
    /// 01 by `World::checked`; image, window and used length are told.
    fn call(&mut self, row: &Row) -> Result<(), String> {
        let call = self.call_of(row)?;
        self.calls += 1;
        let before = self.world()?;
        let mut world = before.clone();
        let answer = world.checked(call)?;
        let found =
            answer.taken().map_or(0, |taken| u64::from(taken.level) << 8 | u64::from(taken.vector));
        let value = if let Call::Read { .. } = call { u64::from(answer.low()) } else { 0 };
        let is = (u64::from(answer.status()), found, value);
        let told = match call {
            Call::Read { .. } => (row[2].into(), 0, number(&row[12..16])),
            Call::Acknowledge { .. } => (row[2].into(), number(&row[4..8]), 0),
            _ => (row[2].into(), 0, 0),
        };
        if is != told {
            return Err(format!("{call:x?} answers {is:x?}, and {told:x?} is told"));
        }
        if call.is_act() && answer.status() == 0 {
            taken_back_and_made_again(&before, &world, call)?;
        }
        self.keep(&world);
        let mut told = self.is.clone();
        told[..IMAGE].copy_from_slice(&before.image);
        told[WINDOW_AT..WINDOW_AT + before.window.len()].copy_from_slice(&before.window);
        if !call.is_act() {
            told[USED_AT..USED_AT + 8].copy_from_slice(&before.used.to_be_bytes());
        }
        self.told = Some(told);
        Ok(())
    }

    /// Puts what a call left in its place.
    fn keep(&mut self, world: &World) {
        let World { image, window, staging, journal, .. } = world;
        let parts = [(0, image), (WINDOW_AT, window), (STAGING_AT, staging), (JOURNAL_AT, journal)];
        for (at, part) in parts {
            self.is[at..at + part.len()].copy_from_slice(part);
        }
        self.put(USED_AT, world.used);
    }

    /// Holds the bytes to what the rows behind the last call told.
    fn compare(&mut self) -> Result<(), String> {
        let Some(told) = self.told.take() else { return Ok(()) };
        if let Some(what) = difference::of_images(&self.is[..IMAGE], &told[..IMAGE]) {
            return Err(what);
        }
        match self.is.iter().zip(&told).position(|(is, told)| is != told) {
            None => Ok(()),
            Some(at) => {
                Err(format!("byte {at} is {:02x}, and {:02x} is told", self.is[at], told[at]))
            }
        }
    }
}

/// A row's last eight bytes, laid over those at its offset.
fn lay(bytes: &mut [u8], row: &Row) -> Result<(), String> {
    let at = number(&row[4..8]) as usize;
    let there = bytes.get_mut(at..at + 8).ok_or_else(|| format!("there is no byte {at}"))?;
    there.copy_from_slice(&row[8..16]);
    Ok(())
}
