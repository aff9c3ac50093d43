//! What is read of a connection.

use super::SHARE;
use crate::requests::LONGEST_LINE;
use crate::stream::Stream;
use std::io::{self, ErrorKind, Read};
use std::time::{Duration, Instant};
use wozgirt_system::Interest;

/// How many shares are read of a connection that is to be closed.
const MOST_DRAINED: usize = 16;

/// What came of reading.
#[derive(Debug, PartialEq, Eq)]
pub enum Reading {
    /// There was something, or nothing yet.
    Open,
    /// The other end said all that it will say.
    Ended,
}

/// The socket of a connection, and what was read of it and not taken yet.
#[derive(Debug)]
pub(super) struct Wire {
    pub(super) stream: Stream,
    /// What is waited for there.
    pub(super) interest: Interest,
    pub(super) input: Vec<u8>,
    /// When it was last heard.
    pub(super) heard: Instant,
    /// The other end says nothing more; it may still read.
    pub(super) has_said_all: bool,
    /// It does not read any more either: what it has said is done, and nobody hears what comes of it.
    pub(super) is_gone: bool,
}

impl Wire {
    pub(super) fn new(stream: Stream, now: Instant) -> Wire {
        Wire { stream, interest: Interest::READS, input: Vec::new(), heard: now, has_said_all: false, is_gone: false }
    }

    /// Reads its share.
    pub(super) fn read(&mut self, buffer: &mut [u8; SHARE], now: Instant) -> io::Result<Reading> {
        match self.stream.read(buffer) {
            Ok(0) => Ok(Reading::Ended),
            Ok(count) => {
                self.heard = now;
                self.input.extend_from_slice(&buffer[..count]);
                Ok(Reading::Open)
            }
            Err(fault) if matches!(fault.kind(), ErrorKind::WouldBlock | ErrorKind::Interrupted) => Ok(Reading::Open),
            Err(fault) => Err(fault),
        }
    }

    /// Reads a little of what it still says, and ignores it: a socket that is closed with something unread may take back what
    /// was sent last.
    pub(super) fn drain(&mut self, buffer: &mut [u8; SHARE]) {
        for _ in 0..MOST_DRAINED {
            if !matches!(self.stream.read(buffer), Ok(count) if count > 0) {
                return;
            }
        }
    }

    /// The other end is gone, and gets nothing more. Reads its last share: whether something is to be done that it has said.
    pub(super) fn note_gone(&mut self, buffer: &mut [u8; SHARE]) -> bool {
        if !self.is_read_enough() {
            let count = self.stream.read(buffer).unwrap_or(0);
            self.input.extend_from_slice(&buffer[..count]);
        }
        (self.is_gone, self.has_said_all) = (true, true);
        self.input.contains(&b'\n')
    }

    /// Whether so much was read already that the rest waits at the system.
    pub(super) fn is_read_enough(&self) -> bool {
        self.input.len() >= SHARE
    }

    /// Whether a line has begun that can have no end.
    pub(super) fn has_endless_line(&self) -> bool {
        self.input.len() >= LONGEST_LINE && !self.input[..LONGEST_LINE].contains(&b'\n')
    }

    /// Whether a line is there, or one that can have no end.
    pub(super) fn has_line(&self) -> bool {
        self.input.contains(&b'\n') || self.has_endless_line()
    }

    /// What it has said may not have been read: whether there is something, which is heard now.
    pub(super) fn is_owed(&mut self, buffer: &mut [u8; SHARE], now: Instant) -> bool {
        // what it said and was not taken yet shows that it waits for the server
        let is_owed =
            !self.input.is_empty() || matches!(self.read(buffer, now), Ok(Reading::Open)) && self.heard == now;
        if is_owed {
            self.heard = now;
        }
        is_owed
    }

    /// Whether it was silent for longer than this.
    pub(super) fn is_silent(&self, lease: Duration, now: Instant) -> bool {
        now.saturating_duration_since(self.heard) > lease
    }
}

#[cfg(test)]
mod tests {
    use super::*;
    use std::io::Write;
    use std::os::unix::net::UnixStream;

    fn wire(now: Instant) -> (Wire, UnixStream) {
        let (one, other) = UnixStream::pair().unwrap();
        (Wire::new(Stream::unix(one).unwrap(), now), other)
    }

    #[test]
    fn what_is_read_is_heard() {
        let begun = Instant::now();
        let (mut wire, mut other) = wire(begun);
        let (mut buffer, later) = ([0; SHARE], begun + Duration::from_secs(9));
        assert_eq!((wire.read(&mut buffer, later).unwrap(), wire.heard), (Reading::Open, begun));
        other.write_all(b"ping").unwrap();
        assert_eq!(wire.read(&mut buffer, later).unwrap(), Reading::Open);
        assert_eq!((wire.heard, &*wire.input, wire.has_line()), (later, &b"ping"[..], false));
        assert!(!wire.is_silent(Duration::from_secs(1), later + Duration::from_secs(1)));
        assert!(wire.is_silent(Duration::from_secs(1), later + Duration::from_millis(1001)));
        other.write_all(b"\n").unwrap();
        drop(other);
        assert!(wire.note_gone(&mut buffer) && wire.is_gone && wire.has_said_all);
    }

    #[test]
    fn a_line_that_can_have_no_end() {
        let now = Instant::now();
        let (mut wire, mut other) = wire(now);
        other.write_all(&[b'a'; LONGEST_LINE]).unwrap();
        wire.read(&mut [0; SHARE], now).unwrap();
        assert!(wire.has_endless_line() && wire.has_line() && !wire.is_read_enough());
        wire.input[LONGEST_LINE - 1] = b'\n';
        assert!(!wire.has_endless_line() && wire.has_line());
    }

    #[test]
    fn who_said_something_that_was_not_read_is_not_silent() {
        let begun = Instant::now();
        let (mut wire, mut other) = wire(begun);
        let (mut buffer, later) = ([0; SHARE], begun + Duration::from_secs(9));
        assert!(!wire.is_owed(&mut buffer, later) && wire.heard == begun);
        other.write_all(b"p").unwrap();
        assert!(wire.is_owed(&mut buffer, later) && wire.heard == later);
    }
}
