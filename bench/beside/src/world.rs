//! Everything a call is lent, in one value, and what every call must leave
//! alone.

use crate::call::Call;
use crate::recorded::place;
use kounpheray::entries::{self, Answer, Lent, LentJournal};
use kounpheray::{Channel, Device, Field};

/// What an image stands for: of a priority the low six bits. Demand 3 compares
/// these, and an accepted call lays them down.
pub fn seen(image: &[u8]) -> Vec<u8> {
    let mut seen = image.to_vec();
    for channel in Channel::all() {
        seen[place(Field::Priority(channel)) + 7] %= 64;
    }
    seen
}

/// Makes a call through one of the two families of entries, which have the
/// same names, and keeps the used length it answers.
macro_rules! made {
    ($world:ident, $entries:ident, $device:expr, $call:ident) => {{
        let memory = Lent { base: $world.base, window: &mut $world.window };
        let journal = LentJournal { bytes: &mut $world.journal, used: $world.used };
        let staging = &mut $world.staging;
        let answer = match $call {
            Call::Read { address, size } => return $entries::read($device, address, size),
            Call::Write { address, size, value } => {
                $entries::write($device, address, size, value, journal)
            }
            Call::Inputs { standing, lines } => $entries::inputs($device, standing, lines, journal),
            Call::Pending { channel, count } => $entries::pending($device, channel, count, journal),
            Call::Run(time) => $entries::run($device, time, memory, staging, journal),
            Call::Service(time) => $entries::service($device, time, memory, staging, journal),
            Call::Acknowledge { ipl } => $entries::acknowledge($device, ipl, journal),
            Call::TakeBack => $entries::take_back($device, memory, journal),
        };
        if answer.status() == 0 {
            $world.used = u64::from(answer.low());
        }
        answer
    }};
}

/// The same world as a [`World`], with its device in memory.
#[derive(Clone, Debug)]
pub struct InMemory {
    pub device: Device,
    pub base: u32,
    pub window: Vec<u8>,
    pub staging: Vec<u8>,
    pub journal: Vec<u8>,
    pub used: u64,
}

impl InMemory {
    /// Makes a call and keeps the used length it answers.
    pub fn call(&mut self, call: Call) -> Answer {
        made!(self, entries, &mut self.device, call)
    }

    /// The world with its device laid down as an image.
    pub fn laid_down(&self) -> World {
        World {
            image: self.device.image(),
            base: self.base,
            window: self.window.clone(),
            staging: self.staging.clone(),
            journal: self.journal.clone(),
            used: self.used,
        }
    }
}

/// Device image, memory, staging and journal.
#[derive(Clone, Debug, PartialEq, Eq)]
pub struct World {
    pub image: Vec<u8>,
    pub base: u32,
    pub window: Vec<u8>,
    pub staging: Vec<u8>,
    pub journal: Vec<u8>,
    pub used: u64,
}

impl World {
    /// Makes a call and keeps the used length it answers.
    pub fn call(&mut self, call: Call) -> Answer {
        made!(self, images, &mut self.image, call)
    }

    /// Makes a call in the model and keeps the used length it answers.
    pub fn modelled(&mut self, call: Call) -> Answer {
        let World { image, base, window, staging, journal, used } = self;
        let mut lent = model::Lent { image, base: *base, window, staging, journal, used: *used };
        let answer = Answer(match call {
            Call::Read { address, size } => return Answer(lent.read(address, size)),
            Call::Write { address, size, value } => lent.write(address, size, value),
            Call::Inputs { standing, lines } => lent.inputs(standing, lines),
            Call::Pending { channel, count } => lent.pending(channel, count),
            Call::Run(time) => lent.run(time.now, time.pace),
            Call::Service(time) => lent.service(time.now, time.pace),
            Call::Acknowledge { ipl } => lent.acknowledge(ipl),
            Call::TakeBack => lent.take_back(),
        });
        if answer.status() == 0 {
            *used = u64::from(answer.low());
        }
        answer
    }

    /// The refusal that a call is met with before anything is done, register
    /// (3) excepted.
    pub fn early(&self, call: Call) -> Option<u8> {
        call.early(self.base, self.window.len(), self.journal.len(), self.used)
            .or_else(|| call.barred(&self.image))
    }

    /// The same memory, staging and journal around a device in memory.
    pub fn around(&self, device: Device) -> InMemory {
        InMemory {
            device,
            base: self.base,
            window: self.window.clone(),
            staging: self.staging.clone(),
            journal: self.journal.clone(),
            used: self.used,
        }
    }

    /// Makes a call and holds everything it was lent to the documents' words
    /// on what is left unchanged, what is zero, and which length is answered.
    pub fn checked(&mut self, call: Call) -> Result<Answer, String> {
        let before = self.clone();
        let answer = self.call(call);
        match self.broken(&before, call, answer) {
            None => Ok(answer),
            Some(what) => Err(format!("{call:?} with status {}: {what}", answer.status())),
        }
    }

    fn broken(&self, before: &World, call: Call, answer: Answer) -> Option<&'static str> {
        if answer.status() == 0 {
            return self.broken_after_acceptance(before, call, answer);
        }
        if self.image != before.image {
            return Some("a refusal changed the device");
        }
        if self.window != before.window {
            return Some("a refusal changed the window");
        }
        self.broken_answer(before, call, answer)
            .or_else(|| self.broken_staging(before, call, answer))
            .or_else(|| self.broken_journal(before, call, answer))
    }

    fn broken_answer(&self, before: &World, call: Call, answer: Answer) -> Option<&'static str> {
        let low = match (call, answer.status()) {
            (Call::Read { .. }, _) => 0,
            (_, 255) => return None,
            _ => before.used as u32,
        };
        if answer.low() != low {
            return Some("a refusal answered another length than the one given");
        }
        (answer.taken().is_some()).then_some("a refusal answered an interrupt")
    }

    fn broken_staging(&self, before: &World, call: Call, answer: Answer) -> Option<&'static str> {
        let early = matches!(answer.status(), 1..=8 | 14 | 255);
        if early || !call.moves() {
            return (self.staging != before.staging).then_some("staging changed");
        }
        self.staging.iter().any(|&byte| byte != 0).then_some("staging is not all zero")
    }

    fn broken_journal(&self, before: &World, call: Call, answer: Answer) -> Option<&'static str> {
        let zeroed = match answer.status() {
            9 | 10 => call.moves(),
            11 => true,
            _ => false,
        };
        if !zeroed {
            return (self.journal != before.journal).then_some("a refusal changed the journal");
        }
        let used = before.used as usize;
        if self.journal[..used] != before.journal[..used] {
            return Some("a refusal changed the used journal");
        }
        let rest = &self.journal[used..];
        rest.iter().any(|&byte| byte != 0).then_some("the journal is not zero to its end")
    }

    fn broken_after_acceptance(
        &self,
        before: &World,
        call: Call,
        answer: Answer,
    ) -> Option<&'static str> {
        let (old, new) = (before.used as usize, self.used as usize);
        match call {
            Call::Read { .. } => {
                return (self != before).then_some("a read changed something");
            }
            Call::TakeBack => {
                if new >= old || new % 16 != 0 {
                    return Some("a take-back answered no shorter length");
                }
                if self.journal[new..old].iter().any(|&byte| byte != 0) {
                    return Some("the removed group is not zero");
                }
                if self.journal[..new] != before.journal[..new]
                    || self.journal[old..] != before.journal[old..]
                {
                    return Some("a take-back changed the rest of the journal");
                }
            }
            _ => {
                if new <= old || new % 16 != 0 || new > self.journal.len() {
                    return Some("an act answered no longer length");
                }
                if self.journal[..old] != before.journal[..old]
                    || self.journal[new..] != before.journal[new..]
                {
                    return Some("an act changed the journal outside its group");
                }
                if !call.moves() && self.window != before.window {
                    return Some("an act that moves nothing changed the window");
                }
            }
        }
        self.broken_staging(before, call, answer)
    }
}
