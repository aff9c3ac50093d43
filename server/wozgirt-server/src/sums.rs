//! What is counted since the server started.

use crate::log::{End, Of};
use std::collections::BTreeMap;

/// How many reasons of refusals are counted by themselves, at most.
const MOST_REASONS: usize = 64;

/// Sums.
#[derive(Debug, Default)]
pub struct Sums {
    /// Connections that were let in.
    pub connections: u64,
    /// Connections that were not, since there were too many.
    pub turned_away: u64,
    /// Inputs that went to the engine.
    pub inputs: u64,
    refusals: BTreeMap<Box<str>, u64>,
    parts: BTreeMap<Of, u64>,
    ends: BTreeMap<End, u64>,
}

impl Sums {
    /// Something was refused.
    pub fn refused(&mut self, why: &str) {
        if let Some(count) = self.refusals.get_mut(why) {
            *count += 1;
        } else if self.refusals.len() < MOST_REASONS {
            self.refusals.insert(why.into(), 1);
        }
    }

    /// One more of this was refused to somebody, since it has its part, or all have theirs.
    pub fn refused_part(&mut self, of: Of) {
        *self.parts.entry(of).or_default() += 1;
    }

    /// How often that was so.
    pub fn parts(&self, of: Of) -> u64 {
        self.parts.get(&of).copied().unwrap_or(0)
    }

    /// A connection ended.
    pub fn ended(&mut self, end: End) {
        *self.ends.entry(end).or_default() += 1;
    }

    /// How often each reason was given.
    pub fn refusals(&self) -> impl Iterator<Item = (&str, u64)> {
        self.refusals.iter().map(|(why, count)| (&**why, *count))
    }

    /// How many connections ended so.
    pub fn ends(&self, end: End) -> u64 {
        self.ends.get(&end).copied().unwrap_or(0)
    }
}
