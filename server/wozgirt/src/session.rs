//! A lock in a session: if the server is lost, the next one continues the same hold, or the same server after a restart.
//!
//! The client has a key that it drew, and numbers what it asks. Another server reports what the session has, and does not do again what
//! was done. Of several servers the client has a lease in any case; if no server answers for half of it, the lock is lost. Of one server
//! the session is attached: it is over when the connection is closed on this side. There the client has a lease if it asks for one; else
//! the lock is lost when the server has been away for half of the time that it keeps the session.

use crate::answers::{Answer, Verb};
use crate::client::{fault_of, question, soon, soon_after, Client, Fault};
use crate::finding::{Finding, Found, Search};
use crate::lock::{Ending, Got, Link, Unanswered, GRACE, LEASE};
use crate::places::Place;
use crate::words::{Hold, Patience};
use std::fs::File;
use std::io::{self, Read};
use std::thread;
use std::time::{Duration, Instant};
use wozgirt_system::{inherit, Event, Interest, Poller, Signal, Signals};

const SERVER: u64 = 1;
const BELL: u64 = 2;
/// How often all servers are tried at first.
const ROUNDS: usize = 3;
/// After this part of the lease the client speaks, and after another one without an answer it looks for another server. So a quarter is
/// left for that, until the lock is lost after half of the lease.
const PARTS: u32 = 8;
/// Where there is no other server, it speaks after this part.
const PARTS_OF_ONE: u32 = 4;
/// How much later a client that does not wait for the lock asks a server that just came up: clients that wait for both are served first.
const AFTER_OTHERS: Duration = Duration::from_millis(200);

/// What was asked last and has no answer yet.
struct Asked {
    number: u64,
    verb: Verb,
    line: String,
}

/// The server that is asked.
enum Server {
    Here(Client),
    Sought(Finding),
    /// Nobody any more. The connection is kept, if there is one: it keeps the lock.
    Nobody(#[allow(dead_code)] Option<Client>),
}

/// A session.
pub struct Session {
    places: Vec<Place>,
    at: usize,
    key: u64,
    is_attached: bool,
    closes: bool,
    lease: Option<Duration>,
    /// How long the session may be without a connection, and since when it is.
    away: Duration,
    left: Option<Instant>,
    server: Server,
    poller: Poller,
    /// Some server heard this client then, or later.
    spoken: Instant,
    /// When the ping was sent that is not answered yet.
    pinged: Option<Instant>,
    number: u64,
    asked: Option<Asked>,
    asked_at: Instant,
    answer: Option<String>,
    name: String,
    is_waiting: bool,
    /// A grant that came before the answer that says to wait.
    early: Option<u64>,
    token: Option<u64>,
}

impl Session {
    /// Begins a session at one server or another.
    pub fn open(places: &[Place], hold: &Hold, deadline: Option<Instant>) -> Result<Session, Fault> {
        let mut bytes = [0; 8];
        File::open("/dev/urandom")?.read_exact(&mut bytes)?;
        let (key, now) = (u64::from_le_bytes(bytes), Instant::now());
        let is_attached = places.len() == 1;
        let has_lease = !is_attached || matches!(places, [Place::Tcp(_)]);
        let lease = hold.lease.or(has_lease.then_some(LEASE));
        let there = now + hold.server_wait;
        let until = soon(deadline).max(deadline.map_or(there, |deadline| deadline.min(there)));
        let rounds = if is_attached { 1 } else { ROUNDS };
        let search = Search { places: places.to_vec(), first: 0, key, is_attached, lease, until, rounds, there };
        let found = search.run()?;
        if is_attached && hold.patience == Patience::None && found.has_come {
            thread::sleep(AFTER_OTHERS);
        }
        let mut session = Session {
            places: search.places,
            at: 0,
            key,
            is_attached,
            closes: hold.closes,
            lease,
            away: Duration::ZERO,
            left: None,
            server: Server::Nobody(None),
            poller: Poller::new()?,
            spoken: now,
            pinged: None,
            number: 0,
            asked: None,
            asked_at: now,
            answer: None,
            name: hold.name.clone(),
            is_waiting: false,
            early: None,
            token: None,
        };
        session.go_on(found)?;
        Ok(session)
    }

    /// Whether the end of this program withdraws all that it has asked.
    pub fn is_attached(&self) -> bool {
        self.is_attached
    }

    /// Asks for the lock, and waits for it as long as the hold says, or until one of these signals ends that.
    pub fn acquire(
        &mut self,
        hold: &Hold,
        deadline: Option<Instant>,
        mut signals: Option<&mut Signals>,
    ) -> Result<Got, Fault> {
        let verb = if hold.patience == Patience::None { Verb::Try } else { Verb::Acquire };
        let end = deadline.map(|deadline| deadline + GRACE);
        self.ask(verb, Some(hold.label()))?;
        let mut events = Vec::new();
        loop {
            if let Some(got) = self.got()? {
                return Ok(got);
            }
            let now = Instant::now();
            if self.is_waiting && self.asked.is_none() && deadline.is_some_and(|deadline| deadline <= now) {
                self.ask(Verb::Cancel, None)?;
            }
            if end.is_some_and(|end| end <= now) {
                return Ok(Got::Not(Ending::Unanswered(self.unanswered())));
            }
            let due = (self.is_attached && self.asked.is_some()).then(|| soon_after(self.asked_at));
            if due.is_some_and(|due| due <= now) && self.left.is_none() {
                return Err(Fault::Late);
            }
            let until = [self.next_time(), deadline.filter(|it| *it > now).or(end), due.filter(|due| *due > now)];
            let until = until.into_iter().flatten().min();
            self.poller.wait(until.map(|until| until.saturating_duration_since(now)), &mut events)?;
            while let Some(signal) = signals.as_mut().and_then(|signals| signals.next_signal()) {
                if signal != Signal::Child {
                    return Ok(Got::Not(Ending::Signal(signal)));
                }
            }
            self.step(&events, Instant::now())?;
        }
    }

    /// What becomes of a question that is given up.
    fn unanswered(&self) -> Unanswered {
        match self.lease {
            Some(lease) if !self.is_attached => Unanswered::Lease(lease),
            _ => Unanswered::Closed,
        }
    }

    /// What came of the question, if that is known.
    fn got(&mut self) -> Result<Option<Got>, Fault> {
        let Some(line) = self.answer.take() else {
            return Ok(self.token.filter(|_| self.asked.is_none()).map(Got::Token));
        };
        match (Answer::read(&line, &self.name), self.token) {
            (Some(Answer::Granted(_) | Answer::Waiting), token) => Ok(token.map(Got::Token)),
            (Some(Answer::Busy | Answer::Cancelled), _) => Ok(Some(Got::Not(Ending::Conflict))),
            (Some(Answer::Refused("waiter")), Some(token)) => Ok(Some(Got::Token(token))), // it came before the cancel
            _ => Err(fault_of(line, &self.name)),
        }
    }

    /// Asks with the next number.
    fn ask(&mut self, verb: Verb, number: Option<u64>) -> Result<(), Fault> {
        self.number += 1;
        self.asked = Some(Asked { number: self.number, verb, line: question(verb, &self.name, number) });
        self.say_again()
    }

    /// Says what has no answer yet, where there is a server; else it is said to the next one.
    fn say_again(&mut self) -> Result<(), Fault> {
        let (Server::Here(client), Some(Asked { number, line, .. })) = (&mut self.server, &self.asked) else {
            return Ok(());
        };
        self.asked_at = Instant::now();
        match client.send(&format!("{number} {line}")) {
            Ok(()) => Ok(()),
            Err(_) => self.search(),
        }
    }

    /// Gives up what the session has: whether a server says so until then. Without one, others get that when the lease is over.
    pub fn leave(mut self, until: Instant) -> bool {
        let (number, line) = (self.number + 1, format!("{} left", self.number + 1));
        let Server::Here(client) = &mut self.server else { return false };
        if client.send(&format!("{number} leave")).is_err() {
            return false;
        }
        loop {
            match client.line(Some(until)) {
                Ok(said) if said == line => return true,
                Ok(_) => {}
                Err(_) => return false,
            }
        }
    }

    /// This server is lost: another one is looked for, or the same one when it is there again.
    fn search(&mut self) -> Result<(), Fault> {
        if let Server::Here(client) = &self.server {
            self.poller.remove(client)?; // COMMAND may have the connection, too
        }
        if self.is_attached {
            self.left.get_or_insert_with(Instant::now);
        }
        let end = self.loss().unwrap_or(self.spoken).max(self.spoken + self.lease.unwrap_or_default());
        let search = Search {
            places: self.places.clone(),
            first: self.at + 1,
            key: self.key,
            is_attached: self.is_attached,
            lease: self.lease,
            until: end,
            rounds: usize::MAX,
            there: self.spoken,
        };
        let finding = Finding::begin(search)?;
        self.poller.add(finding.bell(), BELL, Interest::READS)?;
        self.server = Server::Sought(finding);
        self.pinged = None;
        Ok(())
    }

    /// Continues with this server.
    fn go_on(&mut self, found: Found) -> Result<(), Fault> {
        let Found { client, at, begun, lease, away, told, others, .. } = found;
        self.poller.add(&client, SERVER, Interest::READS)?;
        (self.at, self.spoken, self.lease) = (at, begun, lease);
        (self.away, self.left) = (away, None);
        self.server = Server::Here(client);
        self.compare(&told)?;
        for line in others {
            self.hear(line)?;
        }
        self.hear_what_is_there()?;
        self.say_again()
    }

    /// Reads the lines that were read already, as those after what a server says first: no event comes for them any more.
    fn hear_what_is_there(&mut self) -> Result<(), Fault> {
        let Server::Here(client) = &mut self.server else { return Ok(()) };
        let lines: Vec<String> = std::iter::from_fn(|| client.line_that_is_there()).collect();
        lines.into_iter().try_for_each(|line| self.hear(line))
    }

    /// What the new server says of this session is what this client knows, or what it asked last came to.
    fn compare(&mut self, told: &[String]) -> Result<(), Fault> {
        let holds = told.iter().find_map(|line| {
            let (name, token) = line.strip_prefix("holds ")?.rsplit_once(' ')?;
            (name == self.name).then(|| token.parse().ok())?
        });
        let waits = told.iter().any(|line| line.strip_prefix("waits ") == Some(&self.name));
        let verb = self.asked.as_ref().map(|asked| asked.verb);
        if self.token.is_some() && holds != self.token && verb != Some(Verb::Release) {
            return Err(Fault::Gone("it is held no longer, since its session was over"));
        }
        if self.is_waiting && holds.is_some() {
            (self.is_waiting, self.token) = (false, holds);
        } else if self.is_waiting && !waits && verb != Some(Verb::Cancel) {
            return Err(Fault::Gone("the place in the queue is gone, since its session was over"));
        } else if self.token.is_none() {
            self.early = holds;
        }
        Ok(())
    }

    /// A line of the server: an answer with its number, or the grant that was waited for.
    fn hear(&mut self, line: String) -> Result<(), Fault> {
        if let Some((number, answer)) = line.split_once(' ').filter(|_| line.starts_with(|c: char| c.is_ascii_digit()))
        {
            let asked = self.asked.as_ref().map(|asked| (asked.number, asked.verb));
            return match (number.parse::<u64>(), asked) {
                (Ok(number), Some((last, verb))) if number == last => self.answered(verb, answer),
                (Ok(number), _) if number <= self.number => Ok(()), // repeated by another server
                _ => Err(Fault::Unexpected(line)),
            };
        }
        match Answer::read(&line, &self.name) {
            Some(Answer::Pong) => self.spoken = self.pinged.take().unwrap_or(self.spoken),
            Some(Answer::Granted(token)) if self.is_waiting => (self.is_waiting, self.token) = (false, Some(token)),
            Some(Answer::Granted(token)) if self.token.is_none() => self.early = Some(token),
            Some(Answer::Granted(token)) if self.token == Some(token) => {} // repeated by another server
            _ => return Err(fault_of(line, &self.name)),
        }
        Ok(())
    }

    /// The answer to what was asked last.
    fn answered(&mut self, verb: Verb, answer: &str) -> Result<(), Fault> {
        match Answer::read(answer, &self.name).filter(|answer| answer.is_to(verb)) {
            Some(Answer::Granted(token)) => self.token = Some(token),
            Some(Answer::Waiting) => (self.token, self.is_waiting) = (self.early, self.early.is_none()),
            Some(Answer::Cancelled) => self.is_waiting = false,
            Some(Answer::Released) => self.token = None,
            Some(_) => {}
            None => return Err(fault_of(answer.into(), &self.name)),
        }
        (self.asked, self.early, self.answer) = (None, None, Some(answer.into()));
        Ok(())
    }

    /// When the lock is lost, or nothing is waited for any more.
    fn loss(&self) -> Option<Instant> {
        let part = |time: Duration| if self.token.is_some() { time / 2 } else { time };
        let silence = self.lease.map(|lease| self.spoken + part(lease));
        let absence = self.left.map(|left| left + part(self.away));
        [silence, absence].into_iter().flatten().min()
    }

    /// Reads what has come, speaks if it is time, and continues with another server if this one is silent.
    fn step(&mut self, events: &[Event], now: Instant) -> Result<(), Fault> {
        match &mut self.server {
            Server::Here(client) => {
                let is_readable = events.iter().any(|event| event.key == SERVER);
                let read = if is_readable { client.read(Some(Duration::from_millis(1))) } else { Ok(()) };
                self.hear_what_is_there()?;
                match read {
                    Ok(()) | Err(Fault::Late) => self.speak(now)?,
                    Err(_) => self.search()?,
                }
            }
            Server::Sought(finding) => match finding.take() {
                Some(Ok(found)) => self.go_on(found)?,
                Some(Err(fault @ Fault::Refused(_))) if self.is_attached => return Err(fault),
                Some(Err(_)) => self.search()?,
                None => {}
            },
            Server::Nobody(_) => {}
        }
        if self.loss().is_some_and(|loss| loss <= now) {
            return Err(if self.is_attached { Fault::Late } else { Fault::Nobody });
        }
        Ok(())
    }

    /// After what time this client speaks, if it has a lease.
    fn part(&self) -> Option<Duration> {
        self.lease.map(|lease| lease / if self.is_attached { PARTS_OF_ONE } else { PARTS })
    }

    /// A sign of life, if it is time; a server that has not answered the last one is lost.
    fn speak(&mut self, now: Instant) -> Result<(), Fault> {
        let Some(part) = self.part() else { return Ok(()) };
        let Server::Here(client) = &mut self.server else { return Ok(()) };
        if !self.is_attached && self.pinged.is_some_and(|pinged| pinged + part <= now) {
            return self.search();
        }
        if self.pinged.is_none() && self.spoken + part <= now {
            if client.send("ping").is_err() {
                return self.search();
            }
            self.pinged = Some(now);
        }
        Ok(())
    }
}

impl Link for Session {
    fn poller(&mut self) -> &mut Poller {
        &mut self.poller
    }

    fn lease(&self) -> Option<Duration> {
        Some(self.lease.unwrap_or(self.away))
    }

    /// With a lease, a server takes a silent client for dead, whichever program has the connection. So COMMAND inherits the connection
    /// only if there is one server, and by itself keeps the lock there without a lease, until the server is started again.
    fn share(&self) -> io::Result<bool> {
        match &self.server {
            Server::Here(client) if self.is_attached && !self.closes => {
                inherit(client)?;
                Ok(self.lease.is_none())
            }
            _ => Ok(false),
        }
    }

    fn next_time(&self) -> Option<Instant> {
        let is_silent = self.is_attached && self.pinged.is_some();
        let speaks = match self.server {
            Server::Here(_) if !is_silent => self.part().map(|part| self.pinged.unwrap_or(self.spoken) + part),
            _ => None,
        };
        [speaks, self.loss()].into_iter().flatten().min()
    }

    fn look(&mut self, events: &[Event], now: Instant) -> Option<Fault> {
        self.step(events, now).err()
    }

    fn give_up(&mut self) -> io::Result<()> {
        match std::mem::replace(&mut self.server, Server::Nobody(None)) {
            Server::Here(client) if self.is_attached => {
                self.poller.remove(&client)?;
                self.server = Server::Nobody(Some(client));
            }
            _ => {}
        }
        Ok(())
    }

    fn release(&mut self, token: u64) -> Result<(), Fault> {
        let (mut events, end) = (Vec::new(), soon(None));
        self.ask(Verb::Release, Some(token))?;
        loop {
            if let Some(line) = self.answer.take() {
                let is_released = Answer::read(&line, &self.name) == Some(Answer::Released);
                return if is_released { Ok(()) } else { Err(fault_of(line, &self.name)) };
            }
            let now = Instant::now();
            if end <= now {
                return Err(Fault::Nobody);
            }
            let until = self.next_time().map_or(end, |time| time.min(end));
            self.poller.wait(Some(until.saturating_duration_since(now)), &mut events)?;
            self.step(&events, Instant::now())?;
        }
    }
}
