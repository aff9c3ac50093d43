//! The search for a server that continues a session, in a thread of its own if something else is to be watched meanwhile.

use crate::client::{unexpected, Client, Fault};
use crate::places::Place;
use std::io;
use std::os::unix::net::UnixStream;
use std::sync::mpsc::{channel, Receiver};
use std::thread;
use std::time::{Duration, Instant};

/// How long one server may take to be there, and to say how the session is.
const CONNECT: Duration = Duration::from_secs(2);
const ANSWER: Duration = Duration::from_secs(5);
/// And how long at least, if there is less time left than that.
const LEAST: Duration = Duration::from_millis(50);
/// The pause until all of several servers are tried again, if none of them answers.
const PAUSE: Duration = Duration::from_millis(50);

/// What is looked for.
#[derive(Debug, Clone)]
pub struct Search {
    /// The servers.
    pub places: Vec<Place>,
    /// The one that is tried first.
    pub first: usize,
    /// The session.
    pub key: u64,
    /// Whether it is over when this client closes the connection.
    pub is_attached: bool,
    /// The lease that is asked for, if one is.
    pub lease: Option<Duration>,
    /// When nobody wants it any more.
    pub until: Instant,
    /// How often all are tried,
    pub rounds: usize,
    /// and until when, while one of them may just be starting.
    pub there: Instant,
}

/// A server that has the session.
pub struct Found {
    /// The connection.
    pub client: Client,
    /// Which server it is.
    pub at: usize,
    /// When it was tried.
    pub begun: Instant,
    /// Whether it was not there at first.
    pub has_come: bool,
    /// The lease that it gives, and how long the session may be without a connection.
    pub lease: Option<Duration>,
    pub away: Duration,
    /// What the session has: `holds NAME TOKEN` and `waits NAME`.
    pub told: Vec<String>,
    /// What it also said.
    pub others: Vec<String>,
}

impl Search {
    /// Tries the servers one after the other.
    pub fn run(&self) -> Result<Found, Fault> {
        let count = self.places.len();
        let mut fault = Fault::Nobody;
        for round in 1.. {
            let (mut is_starting, mut pause) = (false, if self.is_attached { Duration::ZERO } else { PAUSE });
            for i in 0..count {
                let at = (self.first + i) % count;
                let other = match self.try_one(at, count - i).map_err(Fault::before_an_answer) {
                    Ok(found) => return Ok(Found { has_come: round > 1, ..found }),
                    Err(known @ (Fault::Connect(..) | Fault::At(..))) => known,
                    Err(other) if count == 1 => other,
                    Err(other) => Fault::At(self.places[at].clone(), Box::new(other)),
                };
                is_starting |= other.is_of_a_start();
                pause = pause.max(other.pause());
                // what a server says, or that it says nothing, is more than that another is not there
                if matches!(fault, Fault::Nobody) || fault.is_of_a_start() || !other.is_of_a_start() {
                    fault = other;
                }
                if Instant::now() >= self.until {
                    return Err(fault);
                }
            }
            if round >= self.rounds && !(is_starting && Instant::now() < self.there) {
                break;
            }
            thread::sleep(pause.min(self.until.saturating_duration_since(Instant::now())));
        }
        Err(fault)
    }

    /// Tries one server; this many share the time that is left.
    fn try_one(&self, at: usize, sharers: usize) -> Result<Found, Fault> {
        let begun = Instant::now();
        let share = self.until.saturating_duration_since(begun) / u32::try_from(sharers).unwrap_or(1);
        let left = share.max(LEAST);
        // where a connection that is closed ends the session, one that may have said its key is not given up for another
        let (connect, answer) = if self.is_attached { (left, left) } else { (CONNECT.min(left), ANSWER.min(left)) };
        let mut client = Client::open(&self.places[at], begun + connect)?;
        let end = Some(begun + answer);
        client.send(&format!("session {}{}", self.key, if self.is_attached { " attached" } else { "" }))?;
        let first = client.line(end)?;
        if self.places.len() > 1 && first.ends_with(" alone") {
            return Err(Fault::Refused("session".into())); // its locks are not those of the others
        }
        let (count, mut lease, mut away) = self.opened(&first).ok_or_else(|| unexpected(first))?;
        let told = (0..count).map(|_| client.line(end)).collect::<Result<_, _>>()?;
        let mut others = Vec::new();
        if let Some(wanted) = self.lease {
            client.send(&format!("lease {}", wanted.as_millis()))?;
            let given = loop {
                let line = client.line(end)?;
                match line.strip_prefix("lease ").and_then(|word| word.parse().ok()) {
                    Some(given) => break Duration::from_millis(given),
                    None => others.push(line),
                }
            };
            (lease, away) = (Some(given), given);
        }
        Ok(Found { client, at, begun, has_come: false, lease, away, told, others })
    }

    /// What the first line of a server says: how many follow, and of an attached session its lease, and how long it may be without a
    /// connection.
    fn opened(&self, first: &str) -> Option<(usize, Option<Duration>, Duration)> {
        let rest = first.strip_prefix(&format!("session {} ", self.key))?;
        let numbers: Vec<u64> = rest.split(' ').map(|word| word.parse().ok()).collect::<Option<_>>()?;
        let time = Duration::from_millis;
        match (self.is_attached, &numbers[..]) {
            (false, &[count]) => Some((usize::try_from(count).ok()?, None, Duration::ZERO)),
            (true, &[count, lease, away]) => {
                Some((usize::try_from(count).ok()?, (lease > 0).then(|| time(lease)), time(away)))
            }
            _ => None,
        }
    }
}

/// A search that runs.
pub struct Finding {
    result: Receiver<Result<Found, Fault>>,
    bell: UnixStream,
}

impl Finding {
    /// Begins it.
    pub fn begin(search: Search) -> io::Result<Finding> {
        let (sender, result) = channel();
        let (bell, rings) = UnixStream::pair()?;
        thread::Builder::new().spawn(move || {
            let _ = sender.send(search.run()); // else nobody wants it any more
            drop(rings);
        })?;
        Ok(Finding { result, bell })
    }

    /// Can be read when the search is over.
    pub fn bell(&self) -> &UnixStream {
        &self.bell
    }

    /// What came of it, once.
    pub fn take(&self) -> Option<Result<Found, Fault>> {
        self.result.try_recv().ok()
    }
}
