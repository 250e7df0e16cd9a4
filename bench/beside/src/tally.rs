//! What was compared and what was not, counted and printed.

use std::collections::BTreeMap;
use std::fmt;

/// Counts under headings.
#[derive(Clone, Debug, Default)]
pub struct Tally {
    compared: BTreeMap<String, u64>,
    apart: BTreeMap<String, u64>,
}

impl Tally {
    /// A call whose answer and whose effect were compared.
    pub fn compared(&mut self, what: impl Into<String>) {
        *self.compared.entry(what.into()).or_default() += 1;
    }

    /// A call of which the other side has nothing to say.
    pub fn apart(&mut self, why: impl Into<String>) {
        *self.apart.entry(why.into()).or_default() += 1;
    }

    pub fn total(&self) -> u64 {
        self.compared.values().sum()
    }

    pub fn of(&self, what: &str) -> u64 {
        self.compared.get(what).copied().unwrap_or_default()
    }

    pub fn add(&mut self, other: Tally) {
        for (what, count) in other.compared {
            *self.compared.entry(what).or_default() += count;
        }
        for (why, count) in other.apart {
            *self.apart.entry(why).or_default() += count;
        }
    }
}

impl fmt::Display for Tally {
    fn fmt(&self, to: &mut fmt::Formatter<'_>) -> fmt::Result {
        writeln!(to, "compared: {} calls", self.total())?;
        for (what, count) in &self.compared {
            writeln!(to, "  {count:>9}  {what}")?;
        }
        writeln!(to, "not comparable: {} calls", self.apart.values().sum::<u64>())?;
        for (why, count) in &self.apart {
            writeln!(to, "  {count:>9}  {why}")?;
        }
        Ok(())
    }
}
