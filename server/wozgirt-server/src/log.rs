//! The log: one line on standard error for each event that an operator wants to know of.

mod ends;
mod events;
mod shares;

pub use ends::{End, Of};
pub use events::{some_of, Event};

use crate::shares::Guest;
use shares::LogShares;
use std::fmt;
use std::io::Write;
use std::sync::atomic::{AtomicUsize, Ordering};
use std::sync::mpsc::{sync_channel, SyncSender};
use std::sync::Arc;
use std::thread::{self, JoinHandle};
use std::time::{Duration, Instant};
use wozgirt_grants::Moment;

/// How many lines, and bytes, may wait to be written. The server never waits for its log.
const ROOM: usize = 4096;
const MOST_BYTES: usize = 1 << 20;
/// But at its end it gives the log this time to be written.
const LAST_LINES: Duration = Duration::from_secs(1);

/// The log's own thread, and the way to it.
pub struct Log {
    lines: Option<SyncSender<String>>,
    thread: Option<JoinHandle<()>>,
    /// How many bytes wait.
    waiting: Arc<AtomicUsize>,
    lost: u64,
    shares: LogShares,
}

impl Log {
    /// Starts the thread that writes.
    pub fn start() -> std::io::Result<Log> {
        let (lines, written) = sync_channel::<String>(ROOM);
        let waiting = Arc::new(AtomicUsize::new(0));
        let left = waiting.clone();
        let write = move || {
            for line in written {
                let _ = std::io::stderr().write_all(line.as_bytes()); // there is no other place to report it
                left.fetch_sub(line.len(), Ordering::Relaxed);
            }
        };
        let thread = thread::Builder::new().name("log".into()).spawn(write)?;
        Ok(Log { lines: Some(lines), thread: Some(thread), waiting, lost: 0, shares: LogShares::default() })
    }

    /// Logs the event. If the log cannot keep up, it is only logged later that lines were lost.
    pub fn say(&mut self, event: &Event<'_>) {
        let time = Utc::now();
        if self.lost > 0 && self.put(format!("{time} lines-lost {} lines of the log are lost\n", self.lost)) {
            self.lost = 0;
        }
        if !self.put(format!("{time} {} {event}\n", event.key())) {
            self.lost += 1;
        }
    }

    /// Logs an event about a client, unless its user or address has had its part of the log: then it is counted.
    pub fn say_of(&mut self, guest: &Guest, now: Instant, event: &Event<'_>) {
        match self.shares.take(guest, now) {
            None => {}
            Some(0) => self.say(event),
            Some(count) => {
                self.say(&Event::LeftOut { count });
                self.say(event);
            }
        }
    }

    /// Whether there was room for the line.
    fn put(&mut self, line: String) -> bool {
        let length = line.len();
        let is_put = self.waiting.fetch_add(length, Ordering::Relaxed) + length <= MOST_BYTES
            && self.lines.as_ref().is_some_and(|lines| lines.try_send(line).is_ok());
        if !is_put {
            self.waiting.fetch_sub(length, Ordering::Relaxed);
        }
        is_put
    }
}

impl Drop for Log {
    /// What was said is written first, if standard error takes it in time: a pipe that nobody reads keeps no server from its end.
    fn drop(&mut self) {
        self.lines = None;
        let end = Instant::now() + LAST_LINES;
        while self.thread.as_ref().is_some_and(|thread| !thread.is_finished()) && Instant::now() < end {
            thread::sleep(Duration::from_millis(1));
        }
    }
}

/// A time, to be written as `2026-11-26T10:15:00Z`.
#[derive(Debug, Clone, Copy, PartialEq, Eq)]
pub struct Utc(u64);

impl Utc {
    /// The time now.
    pub fn now() -> Utc {
        Utc(Moment::now().seconds())
    }

    /// Seconds since the beginning of 1970.
    pub fn seconds(self) -> u64 {
        self.0
    }
}

impl fmt::Display for Utc {
    fn fmt(&self, f: &mut fmt::Formatter<'_>) -> fmt::Result {
        write!(f, "{:.0}", Moment::of(self.0, 0))
    }
}

#[cfg(test)]
mod tests {
    use super::*;
    use wozgirt_engine::Lock;

    #[test]
    fn times() {
        assert_eq!(Utc(1_795_688_100).to_string(), "2026-11-26T10:15:00Z");
    }

    #[test]
    fn some_names() {
        let names: Vec<Lock> = (1..=1000).map(|i| format!("x/{i}").parse().unwrap()).collect();
        assert_eq!((some_of(&[]), some_of(&names[..2])), (String::new(), "x/1,x/2".into()));
        assert_eq!(some_of(&names[..8]), "x/1,x/2,x/3,x/4,x/5,x/6,x/7,x/8");
        assert_eq!(some_of(&names), "x/1,x/2,x/3,x/4,x/5,x/6,x/7,x/8 and 992 more");
    }

    #[test]
    fn a_line_for_each_event() {
        let went = Event::Went { client: 7, who: "alice, process 12", end: End::Lease, held: "deploy" };
        assert_eq!(went.to_string(), "client 7 went (lease): alice, process 12; it held deploy");
        let went = Event::Went { client: 7, who: "alice, process 12", end: End::Closed, held: "" };
        assert_eq!(went.to_string(), "client 7 went (closed): alice, process 12");
    }
}
