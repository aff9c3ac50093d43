//! Leases: which connections are silent or deaf, and when that is looked at.

use super::talks::Talks;
use super::Server;
use crate::connection::{Connection, SHARE};
use crate::log::End;
use crate::settings::Settings;
use std::time::{Duration, Instant};
use wozgirt_engine::Client;

/// How long after its deadline a connection is looked at, and the time between such looks.
const LATE: Duration = Duration::from_millis(1);
const LEAST_PAUSE: Duration = Duration::from_millis(5);
const LONGEST_PAUSE: Duration = Duration::from_millis(250);

/// When connections are looked through.
pub(super) struct Leases {
    next: Instant,
}

impl Leases {
    /// They are at once.
    pub(super) fn new(now: Instant) -> Leases {
        Leases { next: now }
    }

    /// When they are.
    pub(super) fn next(&self) -> Instant {
        self.next
    }

    /// Whether it is time.
    pub(super) fn is_due(&self, now: Instant) -> bool {
        self.next <= now
    }

    /// They are at this time, or sooner.
    pub(super) fn look_at(&mut self, time: Instant) {
        self.next = self.next.min(time);
    }

    /// Something has a deadline that may be earlier than the next look at all.
    pub(super) fn note(&mut self, deadline: Instant) {
        self.look_at(deadline + LATE);
    }

    /// Looks at all connections: which end, and why. `seen`: everything that had come by then was seen.
    fn look(
        &mut self,
        talks: &mut Talks,
        settings: &Settings,
        seen: Instant,
        now: Instant,
        buffer: &mut [u8; SHARE],
    ) -> Vec<(Client, End)> {
        let deaf = settings.limits.deaf;
        let host_lease = settings.cluster.as_ref().map_or(deaf, |words| words.host_lease);
        let shortest = settings.limits.longest_lease.min(deaf).min(host_lease);
        self.next = now + (shortest / 20).clamp(LEAST_PAUSE, LONGEST_PAUSE);
        let mut gone = Vec::new();
        for connection in talks.all_mut() {
            if let Some(end) = end_of(connection, deaf, seen, now, buffer) {
                gone.push((connection.client, end));
            } else if let Some(deadline) = connection.deadline(deaf) {
                self.note(deadline);
            }
        }
        gone
    }

    /// All was looked at: there is some time until the next look.
    fn rest(&mut self, now: Instant) {
        self.next = self.next.max(now + LEAST_PAUSE);
    }
}

/// Why a connection is over, if it is.
fn end_of(
    connection: &mut Connection,
    deaf: Duration,
    seen: Instant,
    now: Instant,
    buffer: &mut [u8; SHARE],
) -> Option<End> {
    // the system reports a little room at a socket late: a slow reader would look deaf
    if connection.is_stuck() && connection.write(now).is_err() {
        Some(End::Closed)
    } else if connection.is_silent(seen) && connection.is_silent_for_sure(buffer, now) {
        Some(End::Lease)
    } else {
        connection.is_deaf(seen, deaf).then_some(End::Deaf)
    }
}

impl Server {
    /// Drops connections that are silent for longer than their lease, or do not read.
    pub(super) fn sweep(&mut self, seen: Instant, buffer: &mut [u8; SHARE]) {
        let now = self.desk.now;
        for (client, end) in self.leases.look(&mut self.talks, &self.desk.settings, seen, now, buffer) {
            match end {
                End::Closed => self.lose(client, buffer),
                _ => self.part(client, end),
            }
        }
        self.sweep_rest(now);
        self.leases.rest(now);
    }

    /// A connection has a deadline that may be earlier than the next look at all.
    pub(super) fn note_deadline(&mut self, client: Client) {
        let deaf = self.desk.settings.limits.deaf;
        let deadline = self.talks.get(client).and_then(|connection| connection.deadline(deaf));
        deadline.into_iter().for_each(|deadline| self.leases.note(deadline));
    }
}

#[cfg(test)]
mod tests {
    use super::*;
    use crate::desk::tests::{connection, settings};
    use std::io::Write;

    const LEASE: Duration = Duration::from_secs(2);

    #[test]
    fn who_is_silent_is_over_and_who_has_spoken_is_not() {
        let begun = Instant::now();
        let (mut talks, mut others) = (Talks::default(), Vec::new());
        for client in 1..=3 {
            let (mut it, other) = connection(b"", begun);
            (it.client, it.lease) = (client, (client < 3).then_some(LEASE));
            talks.insert(it);
            others.push(other);
        }
        let (mut leases, mut buffer) = (Leases::new(begun), [0; SHARE]);
        let now = begun + LEASE + LATE;
        talks.get_mut(1).unwrap().new_interest(false);
        others[0].write_all(b"ping").unwrap(); // it is not read, since there is no engine
        let gone = leases.look(&mut talks, &settings(1), now, now, &mut buffer);
        assert_eq!(gone, [(2, End::Lease)]);
        assert!(!leases.is_due(now) && leases.next() <= now + LONGEST_PAUSE);
    }

    #[test]
    fn a_deadline_is_looked_at_in_time() {
        let begun = Instant::now();
        let mut leases = Leases::new(begun);
        let (mut talks, (mut it, _other)) = (Talks::default(), connection(b"", begun));
        it.lease = Some(Duration::from_millis(20));
        talks.insert(it);
        assert_eq!(leases.look(&mut talks, &settings(1), begun, begun, &mut [0; SHARE]), []);
        assert_eq!(leases.next(), begun + Duration::from_millis(20) + LATE);
        leases.note(begun);
        leases.rest(begun);
        assert_eq!(leases.next(), begun + LEAST_PAUSE);
    }
}
