//! This server in the log: since when it is there, who else is, and whose lease in etcd lives.

use super::entries::Server;
use std::collections::{BTreeMap, BTreeSet, VecDeque};
use std::mem;
use std::time::{Duration, Instant};

/// This server, and the others.
#[derive(Debug)]
pub struct Member {
    /// This server, as long as it is in the log.
    pub me: Option<Server>,
    /// The servers that are alive, once that is known.
    pub alive: Option<BTreeSet<Server>>,
    /// Since when others are not.
    absent: BTreeMap<Server, Instant>,
    /// Until when this server's lease in etcd lives for sure, once that is known.
    pub lease: Option<Instant>,
    /// Whether the engine owed an answer at the last sign of life, and whether it has answered anything since.
    is_owing: bool,
    pub has_answered: bool,
    /// The signs of life that were given and not answered: the number of the first, and when.
    signs: VecDeque<Instant>,
    first_sign: u64,
    /// When the last one was given.
    last_sign: Instant,
}

impl Member {
    /// It is not in the log.
    pub fn new(now: Instant) -> Member {
        Member {
            me: None,
            alive: None,
            absent: BTreeMap::new(),
            lease: None,
            is_owing: false,
            has_answered: false,
            signs: VecDeque::new(),
            first_sign: 1,
            last_sign: now,
        }
    }

    /// It is in the log no longer.
    pub fn leave(&mut self) {
        self.me = None;
        self.lease = None;
        self.signs.clear();
        self.first_sign = 1;
        self.alive = None;
        self.absent.clear();
    }

    /// When the next sign of life is due.
    pub fn next_alive(&self, lease: Duration) -> Instant {
        self.last_sign + lease / 4
    }

    /// The number of the next sign of life, after which the lease is renewed; none while the engine owes an answer for as long as this.
    pub fn next_sign(&mut self, is_idle: bool, now: Instant) -> Option<u64> {
        let is_stuck = mem::replace(&mut self.is_owing, !is_idle) && self.is_owing && !self.has_answered;
        self.has_answered = false;
        self.last_sign = now;
        if self.me.is_none() || is_stuck {
            return None;
        }
        let number = self.first_sign + self.signs.len() as u64;
        self.signs.push_back(now);
        Some(number)
    }

    /// The lease was renewed after this sign of life: whether it is the first time.
    pub fn kept(&mut self, number: u64, lease: Option<Duration>) -> bool {
        let mut is_first = false;
        while self.first_sign <= number {
            let (Some(sign), Some(lease)) = (self.signs.pop_front(), lease) else { break };
            self.first_sign += 1;
            is_first |= self.lease.replace(sign + lease).is_none();
        }
        is_first
    }

    /// Of these servers those that are not alive for as long as this: they are over.
    pub fn over<'a>(
        &mut self,
        servers: impl Iterator<Item = &'a Server>,
        grace: Duration,
        now: Instant,
    ) -> Vec<Server> {
        let (Some(alive), true) = (&self.alive, self.me.is_some()) else { return Vec::new() };
        let missing: Vec<Server> = servers.filter(|it| !alive.contains(it)).cloned().collect();
        self.absent.retain(|server, _| missing.contains(server));
        let is_over = |server: &Server| {
            let since = self.absent.entry(server.clone()).or_insert(now);
            let is_over = now.saturating_duration_since(*since) >= grace;
            if is_over {
                *since = now;
            }
            is_over
        };
        missing.into_iter().filter(is_over).collect()
    }
}

#[cfg(test)]
mod tests {
    use super::*;

    const LEASE: Duration = Duration::from_secs(8);

    fn server(name: &str) -> Server {
        Server { name: name.into(), incarnation: 1 }
    }

    #[test]
    fn a_lease_lives_from_the_sign_after_which_it_was_renewed() {
        let begun = Instant::now();
        let mut member = Member::new(begun);
        assert_eq!((member.next_sign(true, begun), member.next_alive(LEASE)), (None, begun + LEASE / 4));
        member.me = Some(server("a"));
        let signs = [1, 2, 3].map(|second| member.next_sign(true, begun + Duration::from_secs(second)));
        assert_eq!(signs, [Some(1), Some(2), Some(3)]);
        assert_eq!((member.kept(2, Some(LEASE)), member.lease), (true, Some(begun + Duration::from_secs(2) + LEASE)));
        assert_eq!((member.kept(3, Some(LEASE)), member.kept(9, Some(LEASE))), (false, false));
        assert_eq!(member.lease, Some(begun + Duration::from_secs(3) + LEASE));
        member.leave();
        assert_eq!((member.lease, member.next_sign(true, begun)), (None, None));
        member.me = Some(server("a"));
        assert_eq!(member.next_sign(true, begun), Some(1));
    }

    #[test]
    fn no_sign_while_the_engine_owes_an_answer_for_long() {
        let now = Instant::now();
        let mut member = Member::new(now);
        member.me = Some(server("a"));
        assert_eq!(
            [false, false, true, false].map(|is_idle| member.next_sign(is_idle, now)),
            [Some(1), None, Some(2), Some(3)]
        );
        member.has_answered = true;
        assert_eq!([false, false].map(|is_idle| member.next_sign(is_idle, now)), [Some(4), None]);
    }

    #[test]
    fn who_is_absent_for_the_grace_is_over() {
        let (begun, all) = (Instant::now(), ["a", "b", "c"].map(server));
        let mut member = Member::new(begun);
        assert_eq!(member.over(all.iter(), LEASE, begun), []);
        (member.me, member.alive) = (Some(server("a")), Some([server("a"), server("b")].into()));
        assert_eq!(member.over(all.iter(), LEASE, begun), []);
        member.alive = Some([server("a"), server("c")].into());
        assert_eq!(member.over(all.iter(), LEASE, begun + LEASE), []);
        assert_eq!(member.over(all.iter(), LEASE, begun + 2 * LEASE), [server("b")]);
        assert_eq!(member.over(all.iter(), LEASE, begun + 2 * LEASE), []); // said once in this time
    }
}
