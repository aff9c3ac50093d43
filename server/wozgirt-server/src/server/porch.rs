//! Connections of a proxy whose header is not whole. A client is let in when it is, and sent away when it is wrong or late.

use super::{Server, PORCH};
use crate::connection::{Door, SHARE};
use crate::header::{parse, BadHeader, Header};
use crate::log::{End, Event};
use crate::stream::Stream;
use std::collections::HashMap;
use std::io::{ErrorKind, Read, Write};
use std::time::{Duration, Instant};
use wozgirt_system::{Interest, Poller};

/// How many wait there at once, and for how long each. A proxy says all at once.
pub(super) const MOST_ARRIVALS: usize = 64;
const LONGEST: Duration = Duration::from_secs(3);

/// Somebody whose header is not whole.
pub(super) struct Arrival {
    stream: Stream,
    said: Vec<u8>,
    until: Instant,
}

/// What came of hearing one.
enum Heard {
    /// It has not said all.
    Waits(Arrival),
    /// This is its header, and what it said after that.
    Whole(Header, Stream, Vec<u8>),
    /// It said something else.
    Wrong(BadHeader, Stream),
    /// It said nothing, and is gone.
    Gone,
}

impl Arrival {
    fn new(stream: Stream, now: Instant) -> Arrival {
        Arrival { stream, said: Vec::new(), until: now + LONGEST }
    }

    fn hear(mut self, buffer: &mut [u8; SHARE]) -> Heard {
        let has_ended = match self.stream.read(buffer) {
            Ok(count) => {
                self.said.extend_from_slice(&buffer[..count]);
                count == 0
            }
            Err(fault) => !matches!(fault.kind(), ErrorKind::WouldBlock | ErrorKind::Interrupted),
        };
        match parse(&self.said) {
            Ok(Some((header, length))) => {
                let rest = self.said.split_off(length);
                Heard::Whole(header, self.stream, rest)
            }
            Ok(None) if has_ended && self.said.is_empty() => Heard::Gone,
            Ok(None) if has_ended => Heard::Wrong(BadHeader::Cut, self.stream),
            Ok(None) => Heard::Waits(self),
            Err(fault) => Heard::Wrong(fault, self.stream),
        }
    }
}

/// All of them, by their keys at the poller.
#[derive(Default)]
pub(super) struct Porch {
    arrivals: HashMap<u64, Arrival>,
    last: u64,
}

impl Porch {
    /// Whether one more may wait.
    fn has_room(&self) -> bool {
        self.arrivals.len() < MOST_ARRIVALS
    }

    /// It waits: until when.
    fn put(&mut self, arrival: Arrival, poller: &Poller) -> Option<Instant> {
        self.last += 1;
        let (key, until) = (PORCH + self.last, arrival.until);
        poller.add(&arrival.stream, key, Interest::READS).ok()?;
        self.arrivals.insert(key, arrival);
        Some(until)
    }

    /// Nobody waits any more.
    pub(super) fn clear(&mut self) {
        self.arrivals.clear();
    }

    /// Takes out those whose time is over.
    fn take_late(&mut self, now: Instant) -> Vec<Arrival> {
        let late = self.arrivals.iter().filter(|(_, it)| it.until <= now).map(|(key, _)| *key);
        let late: Vec<u64> = late.collect();
        late.into_iter().filter_map(|key| self.arrivals.remove(&key)).collect()
    }

    /// When the next one's is.
    fn next_late(&self) -> Option<Instant> {
        self.arrivals.values().map(|arrival| arrival.until).min()
    }
}

impl Server {
    /// Somebody has come to the proxy's socket: mostly its header is there.
    pub(super) fn meet(&mut self, stream: Stream, buffer: &mut [u8; SHARE]) {
        if !self.porch.has_room() {
            return self.send_away(stream, "refused connections", None);
        }
        self.hear_arrival(Arrival::new(stream, self.desk.now), buffer);
    }

    /// Somebody who waits there has said more.
    pub(super) fn hear_more(&mut self, key: u64, buffer: &mut [u8; SHARE]) {
        let Some(arrival) = self.porch.arrivals.remove(&key) else { return };
        // it is waited for elsewhere from now on, or not at all
        if self.poller.remove(&arrival.stream).is_ok() {
            self.hear_arrival(arrival, buffer);
        }
    }

    fn hear_arrival(&mut self, arrival: Arrival, buffer: &mut [u8; SHARE]) {
        match arrival.hear(buffer) {
            Heard::Waits(arrival) => {
                let until = self.porch.put(arrival, &self.poller);
                until.into_iter().for_each(|until| self.leases.note(until));
            }
            Heard::Whole(header, stream, said) => {
                let caller = self.people.caller_of_proxy(&stream, header);
                let client = self.desk.mode.next_client();
                let mut connection = self.entrance.connection(client, caller, stream, self.desk.now);
                connection.put_back(said, 0);
                connection.lease = self.desk.first_lease(Door::Proxied);
                self.welcome(connection);
                self.queue(client);
            }
            Heard::Wrong(fault, stream) => self.send_away(stream, "refused header", Some(fault)),
            Heard::Gone => {}
        }
    }

    /// Sends the answer to somebody that gets no connection, if it takes that at once. What is wrong with its header is logged.
    fn send_away(&mut self, mut stream: Stream, answer: &str, fault: Option<BadHeader>) {
        let caller = self.people.caller(Door::Proxied, &stream, None);
        let _ = writeln!(stream, "{answer}");
        let event = if let Some(fault) = fault {
            self.desk.sums.ended(End::Header);
            Event::HeaderRefused { who: &caller.who, fault }
        } else {
            self.desk.sums.turned_away += 1;
            Event::TooMany { who: &caller.who }
        };
        self.desk.log.say_of(&caller.guest, self.desk.now, &event);
    }

    /// Sends away those whose headers are late.
    pub(super) fn sweep_porch(&mut self) {
        for arrival in self.porch.take_late(self.desk.now) {
            self.send_away(arrival.stream, "refused header", Some(BadHeader::Late));
        }
        self.porch.next_late().into_iter().for_each(|until| self.leases.note(until));
    }
}

#[cfg(test)]
mod tests {
    use super::*;
    use crate::header::SIGNATURE;
    use std::os::unix::net::UnixStream;

    const LOCAL: [u8; 4] = [0x20, 0, 0, 0];

    fn arrival(now: Instant) -> (Arrival, UnixStream) {
        let (one, other) = UnixStream::pair().unwrap();
        (Arrival::new(Stream::unix(one).unwrap(), now), other)
    }

    #[test]
    fn what_comes_after_the_header_is_kept() {
        let (arrival, mut other) = arrival(Instant::now());
        other.write_all(&[&SIGNATURE[..], &LOCAL, b"ping\npi"].concat()).unwrap();
        let Heard::Whole(Header::Local, _, rest) = arrival.hear(&mut [0; SHARE]) else { panic!() };
        assert_eq!(rest, b"ping\npi");
    }

    #[test]
    fn a_header_in_parts() {
        let (mut arrival, mut other) = arrival(Instant::now());
        for byte in [&SIGNATURE[..], &LOCAL[..3]].concat() {
            other.write_all(&[byte]).unwrap();
            let Heard::Waits(same) = arrival.hear(&mut [0; SHARE]) else { panic!() };
            arrival = same;
        }
        other.write_all(&LOCAL[3..]).unwrap();
        assert!(matches!(arrival.hear(&mut [0; SHARE]), Heard::Whole(Header::Local, _, rest) if rest.is_empty()));
    }

    #[test]
    fn one_that_ends_before_its_header_does() {
        for (said, is_wrong) in [(&b""[..], false), (&SIGNATURE[..5], true)] {
            let (arrival, mut other) = arrival(Instant::now());
            other.write_all(said).unwrap();
            drop(other);
            let heard = match arrival.hear(&mut [0; SHARE]) {
                Heard::Waits(arrival) => arrival.hear(&mut [0; SHARE]),
                heard => heard,
            };
            assert!(if is_wrong {
                matches!(heard, Heard::Wrong(BadHeader::Cut, _))
            } else {
                matches!(heard, Heard::Gone)
            });
        }
        let (arrival, mut other) = arrival(Instant::now());
        other.write_all(b"acquire a 1\n").unwrap();
        assert!(matches!(arrival.hear(&mut [0; SHARE]), Heard::Wrong(BadHeader::Signature, _)));
    }

    #[test]
    fn each_waits_for_its_time_and_there_are_not_too_many() {
        let (begun, poller, mut porch) = (Instant::now(), Poller::new().unwrap(), Porch::default());
        let mut others = Vec::new();
        for after in 0..MOST_ARRIVALS as u64 {
            assert!(porch.has_room());
            let (arrival, other) = arrival(begun + Duration::from_millis(after));
            others.push(other);
            assert_eq!(porch.put(arrival, &poller), Some(begun + LONGEST + Duration::from_millis(after)));
        }
        assert!(!porch.has_room() && porch.take_late(begun).is_empty());
        assert_eq!(porch.take_late(begun + LONGEST + Duration::from_millis(1)).len(), 2);
        assert!(porch.has_room() && porch.next_late() == Some(begun + LONGEST + Duration::from_millis(2)));
        porch.clear();
        assert_eq!(porch.next_late(), None);
    }
}
