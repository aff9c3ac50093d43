//! How the starts of a process went, and when the next one is.

use std::time::{Duration, Instant};

/// An engine that ends before it is ready, this many times in a row, is not started again.
const MOST_FAILURES: u32 = 6;
/// How long the next start waits after one that did not last; twice as long after each other one in a row, up to 32 times.
const FIRST_PAUSE: Duration = Duration::from_millis(50);
const MOST_DOUBLINGS: u32 = 5;
/// A start that lasts this long does not count.
const LASTING: Duration = Duration::from_secs(1);

/// The starts.
pub(super) struct Starts {
    /// How many there were.
    pub(super) count: u64,
    /// How many in a row ended before the process was ready, and how many did not last.
    failures: u32,
    pub(super) shorts: u32,
    pub(super) is_ready: bool,
    last: Instant,
}

impl Starts {
    /// There were none.
    pub(super) fn new(now: Instant) -> Starts {
        Starts { count: 0, failures: 0, shorts: 0, is_ready: false, last: now }
    }

    /// It is started.
    pub(super) fn begin(&mut self, now: Instant) {
        self.is_ready = false;
        self.last = now;
        self.count += 1;
    }

    /// It has ended: how long the next start waits, if there is one.
    pub(super) fn end(&mut self, now: Instant) -> Option<Duration> {
        self.failures = if self.is_ready { 0 } else { self.failures + 1 };
        let is_short = !self.is_ready || now.saturating_duration_since(self.last) < LASTING;
        self.shorts = if is_short { self.shorts + 1 } else { 0 };
        if self.failures == MOST_FAILURES {
            return None;
        }
        let doublings = self.shorts.checked_sub(1).map(|count| count.min(MOST_DOUBLINGS));
        Some(doublings.map_or(Duration::ZERO, |doublings| FIRST_PAUSE * 2u32.pow(doublings)))
    }
}

#[cfg(test)]
mod tests {
    use super::*;

    /// What comes after a start that lasted for this time.
    fn after(starts: &mut Starts, is_ready: bool, time: Duration) -> Option<Duration> {
        let now = Instant::now();
        starts.begin(now);
        starts.is_ready = is_ready;
        starts.end(now + time)
    }

    #[test]
    fn one_that_lasted_is_started_at_once_and_others_wait() {
        let mut starts = Starts::new(Instant::now());
        assert_eq!(after(&mut starts, true, LASTING), Some(Duration::ZERO));
        for times in [1, 2, 4, 8, 16, 32, 32, 32] {
            assert_eq!(after(&mut starts, true, Duration::ZERO), Some(times * FIRST_PAUSE));
        }
        assert_eq!((after(&mut starts, true, LASTING), starts.count), (Some(Duration::ZERO), 10));
    }

    #[test]
    fn one_that_never_gets_ready_is_given_up() {
        let mut starts = Starts::new(Instant::now());
        let tries = [0; MOST_FAILURES as usize].map(|_| after(&mut starts, false, LASTING).is_some());
        assert_eq!(tries, [true, true, true, true, true, false]);
        let mut starts = Starts::new(Instant::now());
        (1..MOST_FAILURES).for_each(|_| _ = after(&mut starts, false, LASTING));
        assert!(after(&mut starts, true, LASTING).is_some() && after(&mut starts, false, LASTING).is_some());
    }
}
