//! A lock of one server: it is held as long as the connection lasts.

use crate::answers::{Answer, Verb};
use crate::client::{fault_of, question, soon, Client, Fault};
use crate::connecting::while_starting;
use crate::lock::{Ending, Got, Link, Unanswered, GRACE, LEASE};
use crate::places::Place;
use crate::words::{Hold, Patience};
use std::io;
use std::thread;
use std::time::{Duration, Instant};
use wozgirt_system::{inherit, Event, Interest, Poller};

const SERVER: u64 = 1;
/// How much later a client that does not wait for the lock asks a server that just came up: clients that wait for both are served first.
const AFTER_OTHERS: Duration = Duration::from_millis(200);
/// How long a line is read that the system has already.
const AT_ONCE: Duration = Duration::from_millis(1);

/// The lease as this side keeps it: it speaks after each quarter, and takes the lock for lost after a half, so that the
/// command has another quarter to end before the server may give the lock to another.
struct Lease {
    time: Duration,
    /// The server heard this client then, or later.
    heard: Instant,
    /// When the ping was sent that is not answered yet.
    pinged: Option<Instant>,
}

impl Lease {
    fn next_ping(&self) -> Option<Instant> {
        self.pinged.is_none().then(|| self.heard + self.time / 4)
    }

    fn loss(&self) -> Instant {
        self.heard + self.time / 2
    }

    fn ping_if_due(&mut self, client: &mut Client, now: Instant) -> Result<(), Fault> {
        if self.next_ping().is_some_and(|due| due <= now) {
            client.send("ping")?;
            self.pinged = Some(now);
        }
        Ok(())
    }

    fn ponged(&mut self) {
        self.heard = self.pinged.take().unwrap_or(self.heard);
    }
}

/// Connects, and asks for the lease.
fn begin(place: &Place, hold: &Hold, deadline: Option<Instant>) -> Result<(Client, Option<Lease>), Fault> {
    let mut client = Client::open(place, soon(deadline))?;
    let heard = Instant::now();
    let time = match hold.lease.or(client.is_tcp().then_some(LEASE)) {
        None => client.given_lease(soon(deadline))?,
        Some(asked) => Some(client.lease(asked, soon(deadline))?),
    };
    Ok((client, time.map(|time| Lease { time, heard, pinged: None })))
}

/// A connection to the server.
pub struct Alone {
    client: Client,
    lease: Option<Lease>,
    name: String,
    closes: bool,
    poller: Poller,
}

impl Alone {
    /// Connects, and asks for a lease if there is to be one.
    pub fn open(place: &Place, hold: &Hold, deadline: Option<Instant>) -> Result<Alone, Fault> {
        let there = Instant::now() + hold.server_wait;
        let there = deadline.map_or(there, |deadline| deadline.min(there));
        let mut attempts = 0;
        let (client, lease) = while_starting(there, || {
            attempts += 1;
            begin(place, hold, deadline).map_err(Fault::before_an_answer)
        })?;
        if attempts > 1 && hold.patience == Patience::None {
            thread::sleep(AFTER_OTHERS);
        }
        Ok(Alone { client, lease, name: hold.name.clone(), closes: hold.closes, poller: Poller::new()? })
    }

    /// Asks for the lock, and waits for it as long as the hold says.
    pub fn acquire(&mut self, hold: &Hold, deadline: Option<Instant>) -> Result<Got, Fault> {
        let verb = if hold.patience == Patience::None { Verb::Try } else { Verb::Acquire };
        self.client.send(&question(verb, &self.name, Some(hold.label())))?;
        let mut answer_due = Some(soon(None));
        loop {
            let ping_due = self.lease.as_ref().map(|lease| lease.next_ping().unwrap_or(lease.loss()));
            let until = [answer_due, deadline, ping_due].into_iter().flatten().min();
            match self.client.line(until) {
                Ok(line) => match Answer::read(&line, &self.name).filter(|it| it.is_to(verb) || *it == Answer::Pong) {
                    Some(Answer::Pong) => self.lease.iter_mut().for_each(Lease::ponged),
                    Some(Answer::Waiting) if answer_due.is_some() => answer_due = None,
                    Some(Answer::Busy) => return Ok(Got::Not(Ending::Conflict)),
                    Some(Answer::Granted(token)) => return self.got(token),
                    _ => return Err(fault_of(line, &self.name)),
                },
                Err(Fault::Late) => {
                    let now = Instant::now();
                    if let Some(deadline) = deadline.filter(|deadline| *deadline <= now) {
                        return self.cancel(answer_due.is_none(), deadline + GRACE);
                    }
                    let is_lost = self.lease.as_ref().is_some_and(|lease| lease.loss() <= now);
                    if is_lost || answer_due.is_some_and(|due| due <= now) {
                        return Err(Fault::Late);
                    }
                }
                Err(fault) => return Err(fault),
            }
            if let Some(lease) = &mut self.lease {
                lease.ping_if_due(&mut self.client, Instant::now())?;
            }
        }
    }

    /// Waits no longer; the grant may have come first. Where the server does not say so until `end`, closing the connection does
    /// the same.
    fn cancel(&mut self, mut is_answered: bool, end: Instant) -> Result<Got, Fault> {
        self.client.send(&question(Verb::Cancel, &self.name, None))?;
        let mut granted = None;
        loop {
            let line = match self.client.line(Some(end)) {
                Err(Fault::Late) => return Ok(Got::Not(Ending::Unanswered(Unanswered::Closed))),
                other => other?,
            };
            match (Answer::read(&line, &self.name), granted) {
                (Some(Answer::Pong), _) => self.lease.iter_mut().for_each(Lease::ponged),
                (Some(Answer::Waiting), None) if !is_answered => is_answered = true,
                (Some(Answer::Granted(token)), None) => (is_answered, granted) = (true, Some(token)),
                (Some(Answer::Cancelled), None) if is_answered => return Ok(Got::Not(Ending::Conflict)),
                (Some(Answer::Refused("waiter")), Some(token)) => return self.got(token),
                _ => return Err(fault_of(line, &self.name)),
            }
        }
    }

    fn got(&mut self, token: u64) -> Result<Got, Fault> {
        self.poller.add(&self.client, SERVER, Interest::READS)?;
        Ok(Got::Token(token))
    }
}

impl Link for Alone {
    fn poller(&mut self) -> &mut Poller {
        &mut self.poller
    }

    fn lease(&self) -> Option<Duration> {
        self.lease.as_ref().map(|lease| lease.time)
    }

    /// Only this program keeps a lease, so it ends with COMMAND.
    fn share(&self) -> io::Result<bool> {
        if self.closes {
            return Ok(false);
        }
        inherit(&self.client)?;
        Ok(self.lease.is_none())
    }

    fn next_time(&self) -> Option<Instant> {
        self.lease.as_ref().map(|lease| lease.next_ping().unwrap_or(lease.loss()).min(lease.loss()))
    }

    fn look(&mut self, events: &[Event], now: Instant) -> Option<Fault> {
        if events.iter().any(|event| event.key == SERVER) {
            if let Err(fault) = self.client.read(Some(AT_ONCE)) {
                if !matches!(fault, Fault::Late) {
                    return Some(fault);
                }
            }
        }
        while let Some(line) = self.client.line_that_is_there() {
            match &mut self.lease {
                Some(lease) if line == "pong" => lease.ponged(),
                _ => return Some(fault_of(line, &self.name)),
            }
        }
        let lease = self.lease.as_mut()?;
        if lease.loss() <= now {
            return Some(Fault::Late);
        }
        lease.ping_if_due(&mut self.client, now).err()
    }

    fn give_up(&mut self) -> io::Result<()> {
        self.poller.remove(&self.client)
    }

    fn release(&mut self, token: u64) -> Result<(), Fault> {
        self.client.send(&question(Verb::Release, &self.name, Some(token)))?;
        let until = Some(soon(None));
        loop {
            let line = self.client.line(until)?;
            match Answer::read(&line, &self.name) {
                Some(Answer::Released) => return Ok(()),
                Some(Answer::Pong) => {}
                _ => return Err(fault_of(line, &self.name)),
            }
        }
    }
}
