//! The engine and the Rust side by side: after every call answer, memory,
//! descriptors, registers, level and journal are compared.

use crate::call::Call;
use crate::difference;
use crate::tally::Tally;
use crate::world::World;
use kounpheray::entries::Answer;
use kounpheray::{Field, Journal, Record, RECORD};
use oracle::{Oracle, Outside, Ran, IMAGE};

/// The journal's length in a row of calls, and how much of it may be used
/// before a new one is begun.
pub const JOURNAL: usize = 1 << 16;
const FULL: usize = 1 << 15;

/// The length of the descriptor table.
const TABLE: usize = 2048;

/// A journal that takes every run that the Rust is waited for.
const LARGE: usize = 1 << 23;

/// A world with the Rust beside it.
pub struct Beside {
    pub world: World,
    oracle: Oracle,
    /// Whether the Rust holds the same state, to go on from.
    level_with: bool,
    /// The journal's length, but for a call that needs a larger one.
    room: usize,
    pub tally: Tally,
}

impl Beside {
    /// A pair that begins with this world, its lines and level worked out.
    /// The reason where the Rust can't begin with it.
    pub fn new(mut world: World) -> Result<Beside, Outside> {
        Oracle::settle(&mut world.image);
        let oracle = Oracle::load(&world.image, world.base, &world.window)?;
        let room = world.journal.len();
        Ok(Beside { world, oracle, level_with: true, room, tally: Tally::default() })
    }

    /// Puts another device and window beside the same Rust, with an empty
    /// journal.
    pub fn again(&mut self, image: &[u8], base: u32, window: &[u8]) -> Result<(), Outside> {
        self.world.image.copy_from_slice(image);
        self.world.base = base;
        self.world.window.clear();
        self.world.window.extend_from_slice(window);
        self.begin_journal();
        self.level_with = false;
        self.bring_level()
    }

    /// Waits for this many memory accesses of the Rust in each call to come.
    pub fn allow(&mut self, accesses: u64) {
        self.oracle.allow(accesses);
    }

    fn begin_journal(&mut self) {
        self.world.used = 0;
        self.world.journal.truncate(self.room);
    }

    fn bring_level(&mut self) -> Result<(), Outside> {
        if !self.level_with {
            let world = &self.world;
            self.oracle.reload(&world.image, world.base, &world.window)?;
            self.level_with = true;
        }
        Ok(())
    }

    /// Makes a call on both sides and compares.
    pub fn call(&mut self, call: Call) -> Result<Answer, String> {
        if self.world.used as usize > FULL || self.world.journal.len() > self.room {
            self.begin_journal();
        }
        if let Err(why) = self.bring_level() {
            self.tally.apart(format!("{why:?}"));
            return self.world.checked(call);
        }
        if let Some(number) = self.world.early(call) {
            let answer = self.world.checked(call)?;
            self.tally.apart(format!("refusal {number}, which the Rust does not know"));
            return expect(call, answer.status() == number, "status", answer.status(), number)
                .map(|()| answer);
        }
        self.both(call)
    }

    fn both(&mut self, call: Call) -> Result<Answer, String> {
        let before = self.world.image.clone();
        let first = self.world.used as usize;
        let mut answer = self.world.checked(call)?;
        if answer.status() == 11 {
            // The Rust has no journal: look again with room for everything.
            self.tally.apart("refusal 11, then made with a larger journal");
            self.world.journal.resize(LARGE, 0);
            answer = self.world.checked(call)?;
            if answer.status() != 0 {
                self.world.journal.truncate(self.room);
            }
        }
        let agreed = self.ask(call, answer)?;
        if !agreed {
            self.level_with = false;
            return Ok(answer);
        }
        if answer.status() == 0 {
            self.equal(call)?;
            if call.is_act() {
                self.journalled(call, &before, first)?;
            }
        }
        self.tally.compared(match answer.status() {
            0 => call.name().to_string(),
            number => format!("{}, refusal {number}", call.name()),
        });
        Ok(answer)
    }

    /// Asks the Rust the same and compares the answers. False where it has
    /// nothing to say, or where its state is of no use afterwards.
    fn ask(&mut self, call: Call, answer: Answer) -> Result<bool, String> {
        let status = answer.status();
        match call {
            Call::Read { address, size } => match self.oracle.read(address, size) {
                Some(value) => {
                    expect(call, status == 0, "status", status, 0)?;
                    expect(call, answer.low() == value, "value", answer.low(), value)?;
                }
                None => expect(call, status == 3, "status", status, 3)?,
            },
            Call::Write { address, size, value } => {
                let number = if self.oracle.write(address, size, value) { 0 } else { 3 };
                expect(call, status == number, "status", status, number)?;
            }
            Call::Inputs { standing, lines } => {
                expect(call, status == 0, "status", status, 0)?;
                if let Err(why) = self.oracle.inputs(standing, lines) {
                    self.tally.apart(format!("{why:?}"));
                    return Ok(false);
                }
            }
            Call::Pending { channel, count } => {
                expect(call, status == 0, "status", status, 0)?;
                if let Err(why) = self.oracle.pending(channel as usize, count) {
                    self.tally.apart(format!("{why:?}"));
                    return Ok(false);
                }
            }
            Call::Acknowledge { ipl } => {
                expect(call, status == 0, "status", status, 0)?;
                let rust = self.oracle.acknowledge(ipl);
                let engine = answer.taken().map(|taken| (taken.level, taken.vector));
                expect(call, engine == rust, "level and vector", engine, rust)?;
            }
            Call::Run(time) => {
                let ran = self.oracle.run(time.now, time.pace);
                return self.ran(call, answer, ran);
            }
            Call::Service(time) => {
                let ran = self.oracle.service(time.now, time.pace);
                return self.ran(call, answer, ran);
            }
            Call::TakeBack => {
                self.tally.apart("take back, which the Rust does not know");
                return Ok(false);
            }
        }
        Ok(true)
    }

    fn ran(&mut self, call: Call, answer: Answer, ran: Ran) -> Result<bool, String> {
        let status = answer.status();
        match (ran, status) {
            (Ran::GivenUp, _) => self.tally.apart("the Rust was given up after many accesses"),
            (_, 10) => self.tally.apart("refusal 10, which the Rust does not know"),
            (Ran::LeftWindow, 9) => self.tally.compared(format!("{}, refusal 9", call.name())),
            (Ran::Whole, 0) => return Ok(true),
            (ran, status) => {
                return Err(format!("{call:?}: engine status {status}, the Rust {ran:?}"));
            }
        }
        Ok(false)
    }

    /// Devices and windows are equal after an accepted call.
    fn equal(&self, call: Call) -> Result<(), String> {
        let mut rust = [0; IMAGE];
        self.oracle.store(&mut rust);
        let World { image, window, base, .. } = &self.world;
        let told = difference::of_images(image, &rust)
            .or_else(|| difference::of_windows(*base, window, self.oracle.window()));
        match told {
            None => Ok(()),
            Some(told) => Err(format!("{call:?}:\n{told}")),
        }
    }

    /// The new group names the stores that the Rust made, in its order, and
    /// the fields that differ, in theirs; its table records lead back to the
    /// table at entry.
    fn journalled(&self, call: Call, before: &[u8], first: usize) -> Result<(), String> {
        let used = self.world.used as usize;
        let bytes = &self.world.journal[first..used];
        let journal = Journal::read(bytes).map_err(|why| format!("{call:?}: {why}"))?;
        let mut groups = journal.groups();
        let (Some(group), None) = (groups.next(), groups.next()) else {
            return Err(format!("{call:?}: not one group"));
        };
        let records = group.records();
        let fields = changed_fields(before, &self.world.image);
        let rest = records.len().saturating_sub(fields.len());
        let broken = if !self.stores_told(call, records) {
            "the memory records are not the Rust's stores"
        } else if records[rest..] != fields
            || records[..rest].iter().any(|record| matches!(record, Record::Field(..)))
        {
            "the field records are not the fields that differ"
        } else if table_undone(&self.world.image, bytes) != before[..TABLE] {
            "the table records do not lead back"
        } else {
            return Ok(());
        };
        Err(format!("{call:?}: {broken}"))
    }

    fn stores_told(&self, call: Call, records: &[Record]) -> bool {
        let made: &[oracle::Store] = if call.moves() { self.oracle.stores() } else { &[] };
        let told = records.iter().filter_map(|record| match record {
            Record::Memory(store) => Some((store.address, store.width, store.old)),
            _ => None,
        });
        told.eq(made.iter().map(|store| (store.address, store.width, store.old)))
    }
}

/// The table with a group's table records undone, last to first.
fn table_undone(image: &[u8], group: &[u8]) -> Vec<u8> {
    let mut table = image[..TABLE].to_vec();
    for row in group.chunks(RECORD).rev().filter(|row| row[2] == 1) {
        let width = usize::from(row[3]);
        let place = usize::from(row[6]) << 8 | usize::from(row[7]);
        table[place..place + width].copy_from_slice(&row[RECORD - width..]);
    }
    table
}

/// A record for each field that differs, in number order.
fn changed_fields(before: &[u8], after: &[u8]) -> Vec<Record> {
    (0..768u16)
        .filter_map(|number| {
            let at = 2064 + 8 * usize::from(number);
            let (old, new) = (&before[at..at + 8], &after[at..at + 8]);
            if old == new {
                return None;
            }
            let value = old.iter().fold(0, |v, byte| v << 8 | u64::from(*byte));
            Some(Record::Field(Field::from_number(number)?, value))
        })
        .collect()
}

fn expect<T: std::fmt::Debug>(
    call: Call,
    holds: bool,
    what: &str,
    engine: T,
    rust: T,
) -> Result<(), String> {
    if holds {
        Ok(())
    } else {
        Err(format!("{call:?}: {what}: engine {engine:?}, expected {rust:?}"))
    }
}
