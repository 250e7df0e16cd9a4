//! Captures: random descriptors, the lists that their minor loops give, and
//! what the entry has to answer for a list.

use crate::random::Random;
use crate::recorded;
use crate::scene::{last, modulo, step};
use kounpheray::entries::{self, Answer};
use kounpheray::{csr, Count, Tcd, CR_EMLM};
use model::capture::{self, Access, Verdict};

/// How many pairs of size codes there are; 25 pairs of sizes.
pub const CODES: u16 = 64;

/// The fetches of a scatter/gather end.
pub const FETCHES: usize = 32;

/// What a list is judged by.
#[derive(Clone, Copy, Debug)]
pub struct Case {
    pub tcd: Tcd,
    pub cr: u32,
}

impl Case {
    /// A minor loop with this pair of size codes, of at most so many bytes.
    pub fn random(
        random: &mut Random,
        codes: u16,
        most: u64,
        address: impl Fn(&mut Random) -> u32,
    ) -> Case {
        let (scode, dcode) = (codes / 8, codes % 8);
        let mapped = random.once_in(2);
        let cr = random.word() as u32 & !CR_EMLM | if mapped { CR_EMLM } else { 0 };
        let control = random.word() as u16;
        let tcd = Tcd {
            saddr: address(random),
            attr: modulo(random) << 11 | scode << 8 | modulo(random) << 3 | dcode,
            soff: step(random, scode),
            nbytes: nbytes(random, most, mapped),
            slast: last(random),
            daddr: address(random),
            citer: count(random),
            doff: step(random, dcode),
            dlast: address(random),
            biter: count(random),
            csr: if random.once_in(2) { control | csr::ESG } else { control & !csr::ESG },
        };
        Case { tcd, cr }
    }

    /// The accesses of the minor loop, with reads that give anything.
    pub fn list(&self, random: &mut Random) -> Vec<Access> {
        // How many there are does not hang on what the reads give.
        let length = self.accesses(&[]).len();
        let values: Vec<u32> = (0..length).map(|_| random.word() as u32).collect();
        self.accesses(&values)
    }

    fn accesses(&self, values: &[u32]) -> Vec<Access> {
        capture::accesses(&self.tcd.to_bytes(), self.cr, values, usize::MAX)
    }

    /// How many fetches stand at the end of its lists.
    pub fn fetches(&self) -> usize {
        let ends = Count::from_raw(self.tcd.citer).loops() == 1;
        if ends && self.tcd.csr & csr::ESG != 0 {
            FETCHES
        } else {
            0
        }
    }

    /// What the entry answers.
    pub fn answer(&self, records: &[u8]) -> Answer {
        entries::capture(&self.tcd.to_bytes(), self.cr, records)
    }

    /// What the model says of a list.
    pub fn verdict(&self, list: &[Access]) -> Verdict {
        capture::judge(&self.tcd.to_bytes(), self.cr, list)
    }

    /// Judges a list by the entry and by the model: where it departs, if it does.
    ///
    /// # Panics
    /// Where the two differ, with the case.
    pub fn judged(&self, list: &[Access]) -> Option<usize> {
        let (answer, verdict) = (self.answer(&capture::records(list)), self.verdict(list));
        let (expected, departs) = match verdict {
            Verdict::Allowed => (0, None),
            Verdict::Departs { at, .. } => (1 << 32 | at as u64, Some(at)),
        };
        assert!(
            answer.0 == expected,
            "answers {:016x}, expected {expected:016x}: {verdict:x?}\n{self:x?}\n{list:x?}",
            answer.0
        );
        departs
    }
}

/// The records of a listing: the lines that begin with the mark, without what
/// is said of them.
pub fn listed(text: &str) -> Vec<u8> {
    let records = text.lines().filter(|line| line.starts_with("4a52"));
    let rows: Vec<&str> = records.map(|line| &line[..32]).collect();
    recorded::read(&rows.join("\n")).concat()
}

/// Anywhere, often shortly before 2^32.
pub fn anywhere(random: &mut Random) -> u32 {
    let near = 0u32.wrapping_sub(random.below(80) as u32);
    let any = random.word() as u32;
    random.pick(&[near, any, any, 0x8000_0000])
}

fn nbytes(random: &mut Random, most: u64, mapped: bool) -> u32 {
    let few = 1 + random.below(most) as u32;
    let bits = random.below(4) as u32;
    // Where it is no offset it is a byte count of some length.
    let offset = if mapped && bits != 0 { random.below(1 << 20) as u32 } else { 0 };
    bits << 30 | offset << 10 | few
}

/// A count that is often the last one, with and without a link.
fn count(random: &mut Random) -> u16 {
    let link = 0x8000 | random.word() as u16 & 0x7E00;
    let any = random.word() as u16;
    match random.below(16) {
        0 => random.pick(&[0, link]),
        1 => any,
        2..=4 => link | random.pick(&[1, 1, 2]),
        n => [1, 1, 1, 1, 2, 2, 2, 3, 17, 0x7FFF, 1][n as usize - 5],
    }
}
