//! How long grants were waited for.

use std::time::Duration;

/// The upper ends of the ranges in which waits for grants are counted, in seconds; above the last there is one more.
pub const WAITS: [f64; 12] = [0.001, 0.003, 0.01, 0.03, 0.1, 0.3, 1.0, 3.0, 10.0, 30.0, 100.0, 300.0];

/// How long those who were granted a lock had waited, of all locks since the server started.
#[derive(Debug, Default)]
pub struct Waits {
    /// How many in each range, and above.
    pub counts: [u64; WAITS.len() + 1],
    /// All of them together.
    pub sum: Duration,
}

impl Waits {
    pub(super) fn count(&mut self, waited: Duration) {
        let range = WAITS.iter().position(|end| waited.as_secs_f64() <= *end).unwrap_or(WAITS.len());
        self.counts[range] += 1;
        self.sum += waited;
    }
}

#[cfg(test)]
mod tests {
    use super::*;

    #[test]
    fn a_wait_is_in_the_first_range_that_has_it() {
        let mut waits = Waits::default();
        for milliseconds in [0, 1, 2, 10, 299_999, 300_001] {
            waits.count(Duration::from_millis(milliseconds));
        }
        let mut counts = [0; WAITS.len() + 1];
        (counts[0], counts[1], counts[2], counts[11], counts[12]) = (2, 1, 1, 1, 1);
        assert_eq!((waits.counts, waits.sum), (counts, Duration::from_millis(600_013)));
    }
}
