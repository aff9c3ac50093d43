//! Waiting for many files at once.

use crate::calls::{self, EpollEvent, EPOLLERR, EPOLLHUP, EPOLLIN, EPOLLOUT};
use crate::calls::{EPOLL_CTL_ADD, EPOLL_CTL_DEL, EPOLL_CTL_MOD};
use std::hint;
use std::io;
use std::os::fd::{AsFd, OwnedFd};
use std::time::{Duration, Instant};

/// How many events the first wait takes at most. Each wait that takes as many as it may doubles the room for the next one.
const FIRST_ROOM: usize = 256;
/// A wait that is shorter ends to the microsecond: `epoll_wait` counts milliseconds.
const FINE: Duration = Duration::from_millis(10);

/// What to wait for at a file. That it is gone is reported in any case.
#[derive(Clone, Copy, Debug, PartialEq, Eq)]
pub struct Interest {
    /// That it can be read.
    pub reads: bool,
    /// That it can be written.
    pub writes: bool,
}

impl Interest {
    /// To be read.
    pub const READS: Interest = Interest { reads: true, writes: false };

    fn bits(self) -> u32 {
        (if self.reads { EPOLLIN } else { 0 }) | (if self.writes { EPOLLOUT } else { 0 })
    }
}

/// What happened at the file with this key.
#[derive(Clone, Copy, Debug, PartialEq, Eq)]
pub struct Event {
    /// The key under which the file was added.
    pub key: u64,
    /// It can be read, or its other end is gone.
    pub is_readable: bool,
    /// It can be written, or its other end is gone.
    pub is_writable: bool,
    /// Its other end is gone for both.
    pub is_gone: bool,
}

/// A set of files that are waited for. As long as something can be done at a file, each wait reports it again.
pub struct Poller {
    epoll: OwnedFd,
    raw: Vec<EpollEvent>,
}

impl Poller {
    /// An empty set.
    pub fn new() -> io::Result<Poller> {
        Ok(Poller { epoll: calls::create_epoll()?, raw: vec![EpollEvent::NONE; FIRST_ROOM] })
    }

    /// Waits for this file too. A file that is closed leaves the set by itself.
    pub fn add(&self, file: impl AsFd, key: u64, interest: Interest) -> io::Result<()> {
        self.control(EPOLL_CTL_ADD, file, key, interest)
    }

    /// Waits for something else at a file of the set.
    pub fn change(&self, file: impl AsFd, key: u64, interest: Interest) -> io::Result<()> {
        self.control(EPOLL_CTL_MOD, file, key, interest)
    }

    /// Waits for this file no longer.
    pub fn remove(&self, file: impl AsFd) -> io::Result<()> {
        self.control(EPOLL_CTL_DEL, file, 0, Interest::READS)
    }

    fn control(&self, operation: i32, file: impl AsFd, key: u64, interest: Interest) -> io::Result<()> {
        let event = EpollEvent { events: interest.bits(), data: key };
        calls::control_epoll(self.epoll.as_fd(), operation, file.as_fd(), event)
    }

    /// The same as [`Poller::wait`] without a sleep, which takes longer to wake from than what happens soon takes to happen.
    pub fn look(&mut self, time: Duration, events: &mut Vec<Event>) -> io::Result<bool> {
        let begun = Instant::now();
        loop {
            let is_all = self.wait(Some(Duration::ZERO), events)?;
            if !events.is_empty() || begun.elapsed() >= time {
                return Ok(is_all);
            }
            hint::spin_loop();
        }
    }

    /// Waits until something happens, or for this time, and puts what happened into `events`. It may be nothing. True if that
    /// is all that had happened; else the next wait has more, and twice the room: so a client that keeps many files busy
    /// delays this answer for a few waits only.
    pub fn wait(&mut self, time: Option<Duration>, events: &mut Vec<Event>) -> io::Result<bool> {
        events.clear();
        let epoll = self.epoll.as_fd();
        let milliseconds = match time {
            Some(time) if !time.is_zero() && time < FINE => {
                calls::wait_until_readable(epoll, time); // the next call reports what comes of it
                0
            }
            // rounded up, so that a wait for a deadline does not end just before it
            Some(time) => i32::try_from(time.as_nanos().div_ceil(1_000_000)).unwrap_or(i32::MAX),
            None => -1,
        };
        let room = self.raw.len();
        let count = match calls::wait_for_epoll(epoll, &mut self.raw, milliseconds) {
            Ok(count) => count,
            Err(fault) if fault.kind() == io::ErrorKind::Interrupted => return Ok(false),
            Err(fault) => return Err(fault),
        };
        events.extend(self.raw[..count].iter().map(|raw| {
            let (bits, key) = (raw.events, raw.data);
            let is_gone = bits & (EPOLLERR | EPOLLHUP) != 0;
            let is_readable = is_gone || bits & EPOLLIN != 0;
            Event { key, is_readable, is_writable: is_gone || bits & EPOLLOUT != 0, is_gone }
        }));
        if count == room {
            self.raw.resize(2 * room, EpollEvent::NONE);
        }
        Ok(count < room)
    }
}

#[cfg(test)]
mod tests {
    use super::*;
    use std::io::{Read, Write};
    use std::os::unix::net::UnixStream;

    fn waited(poller: &mut Poller, milliseconds: u64) -> Vec<Event> {
        let mut events = Vec::new();
        poller.wait(Some(Duration::from_millis(milliseconds)), &mut events).unwrap();
        events
    }

    #[test]
    fn what_is_there_is_told_until_it_is_read() {
        let (mut one, mut other) = UnixStream::pair().unwrap();
        let mut poller = Poller::new().unwrap();
        poller.add(&one, 7, Interest::READS).unwrap();
        assert_eq!(waited(&mut poller, 0), []);
        other.write_all(b"x").unwrap();
        let told = Event { key: 7, is_readable: true, is_writable: false, is_gone: false };
        assert_eq!(waited(&mut poller, 1000), [told]);
        assert_eq!(waited(&mut poller, 1000), [told]);
        one.read_exact(&mut [0]).unwrap();
        assert_eq!(waited(&mut poller, 0), []);
    }

    #[test]
    fn a_short_wait_ends_in_time_or_when_something_comes() {
        let (one, mut other) = UnixStream::pair().unwrap();
        let mut poller = Poller::new().unwrap();
        poller.add(&one, 7, Interest::READS).unwrap();
        for time in [Duration::from_micros(1), Duration::from_micros(300), FINE - Duration::from_nanos(1)] {
            let (begun, mut events) = (std::time::Instant::now(), Vec::new());
            assert!(poller.wait(Some(time), &mut events).unwrap() && events.is_empty());
            assert!(begun.elapsed() >= time);
        }
        other.write_all(b"x").unwrap();
        assert_eq!(waited(&mut poller, 5).len(), 1);
    }

    #[test]
    fn a_look_ends_in_time_or_when_something_comes() {
        let (one, mut other) = UnixStream::pair().unwrap();
        let (mut poller, mut events, begun) = (Poller::new().unwrap(), Vec::new(), Instant::now());
        poller.add(&one, 7, Interest::READS).unwrap();
        let time = Duration::from_micros(300);
        assert!(poller.look(time, &mut events).unwrap() && events.is_empty() && begun.elapsed() >= time);
        other.write_all(b"x").unwrap();
        assert!(poller.look(Duration::from_secs(3600), &mut events).unwrap());
        assert_eq!(events.len(), 1);
    }

    #[test]
    fn a_wait_soon_takes_all_however_many_files_are_busy() {
        let pairs: Vec<_> = (0..FIRST_ROOM + 44).map(|_| UnixStream::pair().unwrap()).collect();
        let mut poller = Poller::new().unwrap();
        for (key, (one, other)) in pairs.iter().enumerate() {
            poller.add(one, key as u64, Interest::READS).unwrap();
            (&mut &*other).write_all(b"x").unwrap();
        }
        let mut events = Vec::new();
        assert!(!poller.wait(Some(Duration::ZERO), &mut events).unwrap());
        assert!(poller.wait(Some(Duration::ZERO), &mut events).unwrap());
        assert_eq!(events.len(), pairs.len());
    }

    #[test]
    fn interests_change_and_ends_are_told() {
        let (one, other) = UnixStream::pair().unwrap();
        let mut poller = Poller::new().unwrap();
        poller.add(&one, 1, Interest { reads: false, writes: true }).unwrap();
        assert!(waited(&mut poller, 1000)[0].is_writable);
        poller.change(&one, 2, Interest { reads: false, writes: false }).unwrap();
        assert_eq!(waited(&mut poller, 0), []);
        drop(other);
        assert!(waited(&mut poller, 1000)[0].is_gone);
        poller.remove(&one).unwrap();
        assert_eq!(waited(&mut poller, 0), []);
    }
}
