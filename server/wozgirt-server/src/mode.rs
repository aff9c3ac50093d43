//! How a server is run: as a single server, or as one of several that have one log. This file has what differs, event by event.

use crate::alone::{Alone, Ask, Session};
use crate::board::Why;
use crate::cluster::{Cluster, Key, Line, Phase};
use crate::connection::Connection;
use crate::desk::{Desk, Then};
use crate::engine::Engine;
use crate::log::End;
use crate::pages::InLog;
use crate::questions::Questions;
use crate::shares::{Counts, Guest};
use std::time::{Duration, Instant};
use wozgirt_engine::{Client, Input, Lock, Token};

/// With this many lines that wait to be put into the log, no more are taken.
const MOST_FOR_LOG: usize = 10_000;

/// A session whose client is away.
pub struct Away {
    /// Its number.
    pub number: Client,
    /// How much longer its client may be away.
    pub left: Duration,
    /// The locks that it holds.
    pub holds: Vec<Lock>,
    /// The lock that it waits for.
    pub waits: Option<Lock>,
    /// On whose account it is.
    pub guest: Guest,
}

/// How a server is run.
pub enum Mode {
    /// What clients ask goes to the engine.
    Alone(Alone),
    /// What clients ask goes into the log, and what is there goes to the engine.
    InLog(Box<Cluster>),
}

impl Mode {
    /// The log that this server has with others, if it has one.
    pub fn in_log(&self) -> Option<&Cluster> {
        match self {
            Mode::Alone(_) => None,
            Mode::InLog(cluster) => Some(cluster),
        }
    }

    /// The same, to be changed.
    pub fn in_log_mut(&mut self) -> Option<&mut Cluster> {
        match self {
            Mode::Alone(_) => None,
            Mode::InLog(cluster) => Some(cluster),
        }
    }

    /// The sessions of a single server.
    pub fn alone_mut(&mut self) -> Option<&mut Alone> {
        match self {
            Mode::Alone(alone) => Some(alone),
            Mode::InLog(_) => None,
        }
    }

    /// The session with this number, of a single server.
    pub fn session(&self, number: Client) -> Option<&Session> {
        match self {
            Mode::Alone(alone) => alone.session(number),
            Mode::InLog(_) => None,
        }
    }

    /// The same, to be changed.
    pub fn session_mut(&mut self, number: Client) -> Option<&mut Session> {
        self.alone_mut()?.session_mut(number)
    }

    /// The session at the connection, of a single server, with its number.
    pub fn seated(&self, connection: &Connection) -> Option<(Client, &Session)> {
        let number = connection.seat.as_ref()?.session?;
        Some((number, self.session(number)?))
    }

    /// Something is asked for a session.
    pub fn note_asked(&mut self, session: Client, ask: Ask) {
        if let Some(session) = self.session_mut(session) {
            session.asked.push_back(ask);
        }
    }

    /// The session holds the lock.
    pub fn hold(&mut self, session: Client, lock: Lock, token: Token) {
        if let Some(alone) = self.alone_mut() {
            alone.hold(session, lock, token);
        }
    }

    /// The session neither holds the lock nor waits for it any more.
    pub fn free(&mut self, session: Client, lock: Lock) {
        if let Some(alone) = self.alone_mut() {
            alone.free(session, lock);
        }
    }

    /// The client of a single server has this lease from here on: whether its connection has a session, which then has it too.
    pub fn set_lease(&mut self, connection: &Connection, lease: Duration) -> bool {
        let (Some(alone), Some(seat)) = (self.alone_mut(), &connection.seat) else { return false };
        seat.session.into_iter().for_each(|session| alone.set_lease(session, lease));
        true
    }

    /// Whether an operator may end a single hold. Of several servers a hold ends with its session.
    pub fn ends_holds(&self) -> bool {
        matches!(self, Mode::Alone(_))
    }

    /// Whether the log has a session of this key.
    pub fn knows(&self, key: Key) -> bool {
        self.in_log().is_some_and(|cluster| cluster.applied.sessions.contains_key(&key))
    }

    /// The line goes into the log with the next entry.
    pub fn put(&mut self, line: Line) {
        if let Some(cluster) = self.in_log_mut() {
            cluster.put(line);
        }
    }

    /// So does the end of the session of this key.
    pub fn put_end(&mut self, key: Key, why: Why) {
        if let Some(cluster) = self.in_log_mut() {
            cluster.put_end(key, why);
        }
    }

    /// The process beside the engine, if there is one: it speaks to etcd.
    pub fn other_process(&mut self) -> Option<&mut Engine> {
        self.in_log_mut().map(|cluster| &mut cluster.log)
    }

    /// How many sessions there are, and on whose account: in the log, those of all servers.
    pub fn sessions(&self) -> Option<&Counts> {
        match self {
            Mode::Alone(alone) => Some(alone.counts()),
            Mode::InLog(cluster) => Some(cluster.mirror.parties()),
        }
    }

    /// The sessions of this server whose clients are away, in the order of their numbers.
    pub fn away(&self, now: Instant) -> Vec<Away> {
        match self {
            Mode::Alone(alone) => {
                let away = alone.away().map(|(number, it)| Away {
                    number,
                    left: it.left(now),
                    holds: it.held(),
                    waits: it.waits.as_ref().map(|place| place.lock.clone()),
                    guest: it.guest.clone(),
                });
                away.collect()
            }
            Mode::InLog(cluster) => {
                let away = cluster.owns.away().filter_map(|(key, until)| {
                    let (number, standing) = (cluster.owns.session(key)?, cluster.standing(key));
                    let (left, guest) = (until.saturating_duration_since(now), cluster.mirror.party(number).guest);
                    Some(Away { number, left, holds: standing.held(), waits: standing.waits, guest })
                });
                let mut away: Vec<Away> = away.collect();
                away.sort_unstable_by_key(|it| it.number);
                away
            }
        }
    }

    /// A number for a client that comes: no client has had it, and no session of a single server.
    pub fn next_client(&mut self) -> Client {
        match self {
            Mode::Alone(alone) => alone.next_number(),
            Mode::InLog(cluster) => cluster.next_client(),
        }
    }

    /// Whether the engine of one of several ends since a checkpoint is made of its state.
    pub fn is_saving(&self) -> bool {
        self.in_log().is_some_and(|cluster| matches!(cluster.replica.phase, Phase::Ending(_)))
    }

    /// Whether no process runs any more but the engine.
    pub fn is_over(&self) -> bool {
        self.in_log().map_or(true, |cluster| cluster.log.is_over())
    }

    /// Whether clients are heard: of a single server, if its engine has begun.
    pub fn is_ready(&self, has_begun: bool) -> bool {
        self.in_log().map_or(has_begun, Cluster::is_ready)
    }

    /// When something is to be done for the log without an event.
    pub fn next_times(&self, now: Instant) -> [Option<Instant>; 2] {
        match self {
            Mode::Alone(_) => [None, None],
            Mode::InLog(cluster) => {
                let look = cluster.log.next_look(now).filter(|_| cluster.replica.is_restored);
                [look, cluster.entry_due()]
            }
        }
    }

    /// What is shown of the log.
    pub fn view(&self) -> Option<InLog> {
        self.in_log().map(Cluster::view)
    }

    /// How many lines wait for the engine, or for the log.
    pub fn waiting_lines(&self, questions: &Questions) -> usize {
        self.in_log().map_or_else(|| questions.waiting(), Cluster::waiting_lines)
    }

    /// How many may wait for the log.
    pub fn most_waiting(&self) -> Option<usize> {
        self.in_log().map(|_| MOST_FOR_LOG)
    }

    /// Whether each client has a lease. Where servers share a log, the lock of a client that hears nothing of its server is given to
    /// another by the next server.
    pub fn gives_leases(&self) -> bool {
        matches!(self, Mode::InLog(_))
    }

    /// The number by which a client is shown: that of its session, if it has one, or where the log gives numbers.
    pub fn number(&self, connection: &Connection) -> Client {
        match self {
            Mode::Alone(_) => connection.seat.as_ref().and_then(|seat| seat.session).unwrap_or(connection.client),
            Mode::InLog(cluster) => {
                connection.seat.as_ref().and_then(|seat| cluster.owns.session(seat.key)).unwrap_or(0)
            }
        }
    }

    /// What a client holds and waits for, as far as the engine has answered.
    pub fn standing(&self, connection: &Connection) -> (Vec<Lock>, Option<Lock>) {
        match (self, &connection.seat) {
            (Mode::InLog(cluster), Some(seat)) => {
                let standing = cluster.standing(seat.key);
                (standing.held(), standing.waits)
            }
            (Mode::Alone(_), Some(_)) => {
                let waits = |it: &Session| it.waits.as_ref().map(|place| place.lock.clone());
                self.seated(connection).map_or((Vec::new(), None), |(_, it)| (it.held(), waits(it)))
            }
            _ => (connection.has.holds.clone(), connection.has.waits_for.clone()),
        }
    }

    /// How many locks the client holds, with the one that it waits for, as far as the engine has answered.
    pub fn count_locks(&self, connection: &Connection) -> usize {
        match (self, &connection.seat) {
            (Mode::Alone(_), Some(_)) => self.seated(connection).map_or(0, |(_, session)| session.count_locks()),
            (Mode::Alone(_), None) => connection.has.holds.len() + usize::from(connection.has.waits_for.is_some()),
            (Mode::InLog(cluster), Some(seat)) => {
                cluster.owns.session(seat.key).map_or(0, |session| cluster.mirror.count_locks(session))
            }
            (Mode::InLog(_), None) => 0,
        }
    }

    /// Whether the client holds the lock, as far as the engine has answered.
    pub fn holds(&self, connection: &Connection, lock: &str) -> bool {
        match (self, &connection.seat) {
            (Mode::Alone(_), Some(_)) => self.seated(connection).is_some_and(|(_, session)| session.has(lock)),
            (Mode::Alone(_), None) => connection.has.holds.iter().any(|held| *held == lock),
            (Mode::InLog(cluster), Some(seat)) => {
                cluster.owns.session(seat.key).is_some_and(|session| cluster.mirror.holds(session, lock))
            }
            (Mode::InLog(_), None) => false,
        }
    }
}

/// What clients do: it goes to the engine, or into the log.
impl Desk {
    /// The client gives its key. Its session begins or continues.
    pub(crate) fn open_session(&mut self, connection: &mut Connection, key: Key, is_attached: bool) -> Then {
        match self.mode {
            Mode::Alone(_) => self.begin_session(connection, key, is_attached),
            Mode::InLog(_) => self.put_session(connection, key, is_attached),
        }
    }

    /// An input that the client may send; without a number if it has not given a key.
    pub(crate) fn take_input(&mut self, connection: &mut Connection, number: Option<u64>, input: Input) -> Then {
        match (&self.mode, number, &input) {
            (Mode::Alone(_), Some(number), _) => return self.ask_for_session(connection, number, input),
            (Mode::Alone(_), None, Input::Stats { lock }) if connection.seat.is_some() => {
                self.tell_stats(connection, lock);
            }
            (Mode::Alone(_), None, _) => self.ask_plainly(connection, input),
            (Mode::InLog(_), _, _) => self.put_input(connection, number, input),
        }
        Then::Wait
    }

    /// The client leaves.
    pub(crate) fn leave(&mut self, connection: &mut Connection, number: Option<u64>) {
        match (&self.mode, number) {
            (Mode::Alone(_), Some(number)) => self.ask_session_to_leave(connection, number),
            (Mode::Alone(_), None) => self.ask_to_leave(connection),
            (Mode::InLog(_), number) => self.put_leave(connection, number),
        }
    }

    /// Its connection is gone, while it was asking or not. Returns what it held.
    pub(crate) fn end_of(&mut self, connection: &mut Connection, end: End, is_asking: bool) -> String {
        match self.mode {
            Mode::Alone(_) => self.end_plain(connection, end),
            Mode::InLog(_) => self.end_seat(connection, end, is_asking),
        }
    }

    /// An operator ends the session with this number, whose client is away. Returns what it held, if there is one.
    pub(crate) fn end_away(&mut self, number: Client) -> Option<String> {
        match self.mode {
            Mode::Alone(_) => self.end_away_alone(number),
            Mode::InLog(_) => self.put_end_of_away(number),
        }
    }
}
