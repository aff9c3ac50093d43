//! A connection to the server, whose calls wait.

use crate::answers::{Answer, Verb};
use crate::connecting::Stream;
use crate::places::Place;
use std::fmt;
use std::io::{self, ErrorKind, Read, Write};
use std::os::fd::{AsFd, BorrowedFd};
use std::time::{Duration, Instant};

/// How long the server may take to be reached, and to answer what needs no waiting.
const SOON: Duration = Duration::from_secs(10);
/// The pause until a server that may just be starting is looked for again. Short, since a client that comes later may find it at once; and
/// longer for one that has ended the connection.
const PAUSE: Duration = Duration::from_millis(10);
const PAUSE_AFTER_END: Duration = Duration::from_millis(50);

/// When a server has to have answered what needs no waiting, if nothing is waited for longer than until `deadline`.
pub fn soon(deadline: Option<Instant>) -> Instant {
    let end = Instant::now() + SOON;
    deadline.map_or(end, |deadline| deadline.min(end))
}

/// When a server has to have answered what it was asked then.
pub fn soon_after(asked: Instant) -> Instant {
    asked + SOON
}

/// Why there is no answer.
#[derive(Debug)]
pub enum Fault {
    /// The server cannot be reached.
    Connect(Place, io::Error),
    /// The server closed the connection.
    Closed,
    /// It did so before its first answer, so nothing was granted on it.
    ClosedFirst,
    /// The connection failed.
    System(io::Error),
    /// The time is over.
    Late,
    /// The server refused: the reason, and what it is about.
    Refused(String),
    /// The server said what it should not.
    Unexpected(String),
    /// One of several servers.
    At(Place, Box<Fault>),
    /// None of several servers answers.
    Nobody,
    /// The session continued, and what it had is gone.
    Gone(&'static str),
}

impl fmt::Display for Fault {
    fn fmt(&self, f: &mut fmt::Formatter<'_>) -> fmt::Result {
        match self {
            Fault::Connect(place, fault) => write!(f, "{place}: {fault}"),
            Fault::Closed | Fault::ClosedFirst => f.write_str("the server closed the connection"),
            Fault::System(fault) => fault.fmt(f),
            Fault::Late => f.write_str("the server does not answer"),
            Fault::Refused(why) => write!(f, "refused: {why}"),
            Fault::Unexpected(line) => write!(f, "the server said: {}", line.escape_debug()),
            Fault::At(place, fault) => write!(f, "{place}: {fault}"),
            Fault::Nobody => f.write_str("no server answers"),
            Fault::Gone(what) => f.write_str(what),
        }
    }
}

impl std::error::Error for Fault {}

impl From<io::Error> for Fault {
    fn from(fault: io::Error) -> Fault {
        match fault.kind() {
            ErrorKind::BrokenPipe | ErrorKind::ConnectionReset => Fault::Closed,
            ErrorKind::WouldBlock | ErrorKind::TimedOut => Fault::Late,
            _ => Fault::System(fault),
        }
    }
}

impl Fault {
    /// Whether a server did not answer in time.
    pub fn is_late(&self) -> bool {
        match self {
            Fault::Late => true,
            Fault::At(_, fault) => fault.is_late(),
            _ => false,
        }
    }

    /// The same, of a connection on which the server has answered nothing yet.
    pub fn before_an_answer(self) -> Fault {
        match self {
            Fault::Closed => Fault::ClosedFirst,
            other => other,
        }
    }

    /// Whether it is that of a server that may just be starting: no program listens at its place yet, or the one that did has ended.
    pub fn is_of_a_start(&self) -> bool {
        match self {
            Fault::Connect(_, fault) => matches!(fault.kind(), ErrorKind::NotFound | ErrorKind::ConnectionRefused),
            Fault::ClosedFirst => true,
            Fault::At(_, fault) => fault.is_of_a_start(),
            _ => false,
        }
    }

    /// The pause until such a server is tried again. A place that ends each connection may be a tunnel, for which a try is a handshake.
    pub fn pause(&self) -> Duration {
        match self {
            Fault::ClosedFirst => PAUSE_AFTER_END,
            Fault::At(_, fault) => fault.pause(),
            _ => PAUSE,
        }
    }
}

/// A connection.
pub struct Client {
    stream: Stream,
    bytes: Vec<u8>,
    taken: usize,
    /// The time after which a read gives up, as the system knows it.
    timeout: Option<Duration>,
}

impl AsFd for Client {
    fn as_fd(&self) -> BorrowedFd<'_> {
        match &self.stream {
            Stream::Unix(stream) => stream.as_fd(),
            Stream::Tcp(stream) => stream.as_fd(),
        }
    }
}

impl Client {
    /// Connects; `Late` if the server does not take the connection until then.
    pub fn open(place: &Place, until: Instant) -> Result<Client, Fault> {
        Ok(Client { stream: Stream::open(place, until)?, bytes: Vec::new(), taken: 0, timeout: None })
    }

    /// Whether the server is reached over TCP.
    pub fn is_tcp(&self) -> bool {
        matches!(self.stream, Stream::Tcp(_))
    }

    /// Sends a line. It does not report that the server has closed the connection: the next read gets first what the server said before.
    pub fn send(&mut self, line: &str) -> Result<(), Fault> {
        let mut text = Vec::with_capacity(line.len() + 1);
        text.extend_from_slice(line.as_bytes());
        text.push(b'\n');
        let written = match &mut self.stream {
            Stream::Unix(stream) => stream.write_all(&text),
            Stream::Tcp(stream) => stream.write_all(&text),
        };
        match written.map_err(Fault::from) {
            Err(Fault::Closed) => Ok(()),
            other => other,
        }
    }

    /// The next line of the server; `Late` if there is none until then.
    pub fn line(&mut self, until: Option<Instant>) -> Result<String, Fault> {
        loop {
            if let Some(line) = self.line_that_is_there() {
                return Ok(line);
            }
            let timeout = match until {
                None => None,
                Some(until) => {
                    let left = until.saturating_duration_since(Instant::now());
                    if left.is_zero() {
                        return Err(Fault::Late);
                    }
                    Some(left)
                }
            };
            self.read(timeout)?;
        }
    }

    /// A line that was read already.
    pub fn line_that_is_there(&mut self) -> Option<String> {
        let length = self.bytes[self.taken..].iter().position(|&b| b == b'\n')?;
        let line = String::from_utf8_lossy(&self.bytes[self.taken..self.taken + length]).into_owned();
        self.taken += length + 1;
        if self.taken == self.bytes.len() {
            self.bytes.clear();
            self.taken = 0;
        }
        Some(line)
    }

    /// Reads what is there, or waits this long for it.
    pub fn read(&mut self, timeout: Option<Duration>) -> Result<(), Fault> {
        if timeout != self.timeout {
            match &self.stream {
                Stream::Unix(stream) => stream.set_read_timeout(timeout)?,
                Stream::Tcp(stream) => stream.set_read_timeout(timeout)?,
            }
            self.timeout = timeout;
        }
        let mut bytes = [0; 4096];
        loop {
            let read = match &mut self.stream {
                Stream::Unix(stream) => stream.read(&mut bytes),
                Stream::Tcp(stream) => stream.read(&mut bytes),
            };
            match read {
                Ok(0) => return Err(Fault::Closed),
                Ok(count) => {
                    self.bytes.extend_from_slice(&bytes[..count]);
                    return Ok(());
                }
                Err(fault) if fault.kind() == ErrorKind::Interrupted => {}
                Err(fault) => return Err(fault.into()),
            }
        }
    }

    /// Asks for a lease: the one that the server grants.
    pub fn lease(&mut self, lease: Duration, until: Instant) -> Result<Duration, Fault> {
        self.send(&format!("lease {}", lease.as_millis()))?;
        let line = self.line(Some(until))?;
        let milliseconds = line.strip_prefix("lease ").and_then(|word| word.parse().ok());
        milliseconds.map(Duration::from_millis).ok_or_else(|| unexpected(line))
    }

    /// The lease that the server gives each connection, if it does.
    pub fn given_lease(&mut self, until: Instant) -> Result<Option<Duration>, Fault> {
        self.send("lease")?;
        let line = self.line(Some(until))?;
        if line == "refused syntax" {
            return Ok(None); // a server that does not know the question gives none on a Unix socket
        }
        let milliseconds = line.strip_prefix("lease ").and_then(|word| word.parse().ok());
        let milliseconds: u64 = milliseconds.ok_or_else(|| unexpected(line))?;
        Ok((milliseconds > 0).then(|| Duration::from_millis(milliseconds)))
    }

    /// The lines after the one that answers `question`, which begins with its word and has their number.
    pub fn list(&mut self, question: &str, until: Instant) -> Result<Vec<String>, Fault> {
        self.send(question)?;
        let first = self.line(Some(until))?;
        let count: Option<usize> =
            first.strip_prefix(question).and_then(|rest| rest.strip_prefix(' ')).and_then(|word| word.parse().ok());
        let count = count.ok_or_else(|| unexpected(first))?;
        (0..count).map(|_| self.line(Some(until))).collect()
    }
}

/// The fault of a line that is none of those that can come.
pub fn unexpected(line: String) -> Fault {
    match line.strip_prefix("refused ") {
        Some(why) => Fault::Refused(why.into()),
        None => Fault::Unexpected(line),
    }
}

/// What is asked about a lock, as the line that asks it.
pub fn question(verb: Verb, name: &str, number: Option<u64>) -> String {
    let word = verb.word();
    number.map_or_else(|| format!("{word} {name}"), |number| format!("{word} {name} {number}"))
}

/// The fault of a line that refuses what was asked about this lock, or does not answer it.
pub fn fault_of(line: String, name: &str) -> Fault {
    match Answer::read(&line, name) {
        Some(Answer::Refused(_)) => unexpected(line),
        _ => Fault::Unexpected(line),
    }
}
