//! How much of the log lines about one user, one address over TCP, or one certificate, may take.

use crate::shares::Guest;
use std::collections::HashMap;
use std::time::{Duration, Instant};

/// How many lines about one guest may come at once, and how long it takes until one more may.
const MOST: u32 = 100;
const EACH: Duration = Duration::from_millis(100);
/// Of how many guests this is known; others share one part.
const MOST_GUESTS: usize = 1024;

/// What one guest has left.
#[derive(Debug)]
struct Part {
    left: u32,
    /// Since when nothing was added to that.
    since: Instant,
    left_out: u64,
}

impl Part {
    fn new(now: Instant) -> Part {
        Part { left: MOST, since: now, left_out: 0 }
    }

    fn refill(&mut self, now: Instant) {
        let more = now.saturating_duration_since(self.since).as_millis() / EACH.as_millis();
        let more = u32::try_from(more).unwrap_or(MOST).min(MOST);
        self.since = if self.left + more >= MOST { now } else { self.since + EACH * more };
        self.left = (self.left + more).min(MOST);
    }

    fn is_whole(&self) -> bool {
        self.left == MOST && self.left_out == 0
    }
}

/// What all have left.
#[derive(Debug, Default)]
pub struct LogShares {
    parts: HashMap<Guest, Part>,
}

impl LogShares {
    /// How many lines about this guest were left out before the one that may be written now; nothing if that is left out too.
    pub fn take(&mut self, guest: &Guest, now: Instant) -> Option<u64> {
        if self.parts.len() >= MOST_GUESTS && !self.parts.contains_key(guest) {
            self.parts.retain(|_, part| {
                part.refill(now);
                !part.is_whole()
            });
        }
        let is_known = self.parts.len() < MOST_GUESTS || self.parts.contains_key(guest);
        let part =
            self.parts.entry(if is_known { guest.clone() } else { Guest::UNKNOWN }).or_insert_with(|| Part::new(now));
        part.refill(now);
        if part.left == 0 {
            part.left_out += 1;
            return None;
        }
        part.left -= 1;
        Some(std::mem::take(&mut part.left_out))
    }
}

#[cfg(test)]
mod tests {
    use super::*;

    fn user(number: u32) -> Guest {
        Guest::User(Some(number))
    }

    #[test]
    fn each_has_its_part() {
        let (mut shares, now) = (LogShares::default(), Instant::now());
        assert_eq!((0..1000).filter(|_| shares.take(&user(1), now).is_some()).count(), MOST as usize);
        assert_eq!((shares.take(&user(2), now), shares.take(&user(1), now)), (Some(0), None));
        assert_eq!(shares.take(&user(1), now + EACH * 3), Some(901));
        assert_eq!((0..9).filter(|_| shares.take(&user(1), now + EACH * 3).is_some()).count(), 2);
        assert_eq!((0..999).filter(|_| shares.take(&user(1), now + EACH * 9999).is_some()).count(), MOST as usize);
    }

    #[test]
    fn not_all_are_known() {
        let (mut shares, now) = (LogShares::default(), Instant::now());
        let count = (0..3 * MOST_GUESTS as u32).filter(|number| shares.take(&user(*number), now).is_some()).count();
        assert_eq!(count, MOST_GUESTS + MOST as usize);
        assert_eq!(shares.parts.len(), MOST_GUESTS + 1);
        assert_eq!(shares.take(&user(9999), now + EACH * 2), Some(0));
        assert_eq!(shares.parts.len(), 2);
    }
}
