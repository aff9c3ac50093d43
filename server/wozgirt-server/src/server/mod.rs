//! The loop: rounds of what happened, and what time brings. Each subject has a room, with what it knows:
//!
//! | Module | Subject |
//! |---|---|
//! | `entrance`, `porch` | clients that come in, and those of a proxy whose header is not whole |
//! | `people` | identities: which user, address or certificate a client is |
//! | `talks`, `operators` | what is asked, and what operators have done |
//! | `leases` | clients that are silent, or deaf |
//! | `shows` | what visitors of the page see |
//! | `record` | the record of grants |
//! | `engine_side`, `session_side` | the engine of a server, and the sessions of a single one |
//! | `cluster_side`, `log_side`, `checkpoints` | the engine of one of several, their log, and where it begins |

mod checkpoints;
mod cluster_side;
mod engine_side;
mod entrance;
mod leases;
mod log_side;
mod opening;
mod operators;
mod people;
mod porch;
mod record;
mod session_side;
mod shows;
mod talks;

pub use opening::CannotServe;

use crate::awake::{Awake, For};
use crate::board::Board;
use crate::certificates::Certificates;
use crate::cluster::Cluster;
use crate::connection::SHARE;
use crate::desk::{Desk, Parts};
use crate::engine::{Engine, ROOM};
use crate::engine_version::EngineVersion;
use crate::grants::Grants;
use crate::log::{End, Event, Log};
use crate::memory::most_unread;
use crate::mode::Mode;
use crate::notify::Notify;
use crate::questions::Questions;
use crate::settings::Settings;
use crate::sums::Sums;
use engine_side::EngineSide;
use entrance::{is_door, Entrance};
use leases::Leases;
use opening::{check_files, check_list, make_journal, open_grants, open_sessions, read_names};
use people::People;
use porch::Porch;
use shows::Shows;
use std::io;
use std::rc::Rc;
use std::time::{Duration, Instant};
use talks::Talks;
use wozgirt_system::{Event as Ready, Interest, Poller, Signal, Signals};

/// Keys of the poller: what is there once, then connections, those who have not said who they are, and visitors.
const SIGNALS: u64 = 0;
const ENGINE: u64 = 1;
const ENGINE_INPUT: u64 = 6;
const LOG: u64 = 7;
const LOG_INPUT: u64 = 8;
const REMARKS: u64 = 9;
const GRANTS: u64 = 11;
const CLIENTS: u64 = 2;
const OPERATORS: u64 = 3;
const NETWORK: u64 = 4;
const PAGE: u64 = 5;
const PROXIED: u64 = 10;
const CONNECTIONS: u64 = 16;
const PORCH: u64 = 1 << 62;
const VISITORS: u64 = 1 << 63;

/// How many come in at one door in one round.
const MOST_COMERS: usize = 64;
/// Files that are open in addition to connections.
const OTHER_FILES: usize = 56;
/// How long an end in good order may take; and how long after that the server waits for its processes to be gone.
const LONGEST_STOP: Duration = Duration::from_secs(10);
const LONGEST_KILL: Duration = Duration::from_secs(2);
/// How long lines are taken in a round, of those that have just spoken, of those that waited for the engine, and then of those whose
/// turn comes again: each has its part of that. For this time at most some come in, too.
const TURNS: Duration = Duration::from_millis(1);
const SHORTEST_TURN: Duration = Duration::from_micros(20);
const LONGEST_TURN: Duration = Duration::from_micros(500);
/// How often is looked whether the system has answered about names.
const LOOK_FOR_ACCOUNTS: Duration = Duration::from_millis(10);

/// What the system has the server do, and hears of it.
struct Manager {
    signals: Signals,
    notify: Notify,
}

/// The server.
pub struct Server {
    desk: Desk,
    poller: Poller,
    awake: Awake,
    entrance: Entrance,
    porch: Porch,
    people: People,
    talks: Talks,
    leases: Leases,
    shows: Shows,
    engine: EngineSide,
    manager: Manager,
    /// Until when an end in good order has to be done.
    stopping: Option<Instant>,
}

impl Server {
    /// Reads names and rules, checks limits, and listens. No thread may have been started before.
    pub fn open(mut settings: Settings) -> Result<Server, CannotServe> {
        let now = Instant::now();
        let signals = Signals::new(&[Signal::Terminate, Signal::Interrupt, Signal::HangUp])?;
        let mut log = Log::start()?;
        let mut people = People::start()?;
        let names = Rc::new(read_names(&mut settings)?);
        make_journal(&settings)?;
        check_list(&settings, &names)?;
        let mut board = Board::new(&names);
        let rules = Rc::new(people.read_rules(&settings, &board)?);
        check_files(&settings)?;
        let most_unread = most_unread(&settings).map_err(CannotServe::Memory)?;
        let grants = open_grants(&settings, &mut board, now)?;
        let engine_version = EngineVersion::of(&settings.engine.program);
        let (journal, socket) = (settings.journal.display(), settings.sockets.clients.path.display());
        log.say(&Event::Started {
            locks: board.locks().len(),
            has_others: board.any().is_some(),
            journal: &journal,
            socket: &socket,
            engine: &engine_version,
        });
        let poller = Poller::new()?;
        poller.add(&signals, SIGNALS, Interest::READS)?;
        grants.iter().filter_map(Grants::bell).try_for_each(|bell| poller.add(bell, GRANTS, Interest::READS))?;
        let entrance = Entrance::open(&settings, most_unread, &poller, &mut log)?;
        let engine = Engine::new(settings.engine.program.clone(), settings.engine_words(), ROOM, now);
        let cluster = Cluster::new(&settings, &names, now)
            .map_err(|fault| CannotServe::Folder(settings.journal.clone(), fault))?;
        let mode = match cluster {
            Some(cluster) => Mode::InLog(Box::new(cluster)),
            None => Mode::Alone(open_sessions(&settings)?),
        };
        let engine_side = EngineSide::start(&settings, now)?;
        let certificates = Certificates::watch(&settings.certificates)?;
        let (questions, sums, parts, is_full) = (Questions::new(now), Sums::default(), Parts::default(), false);
        rules.unknown().iter().for_each(|who| log.say(&Event::RulesUnknown { who }));
        let desk = Desk { settings, rules, engine, questions, is_full, board, sums, parts, log, grants, mode, now };
        Ok(Server {
            desk,
            poller,
            awake: Awake::new(),
            entrance,
            porch: Porch::default(),
            people,
            talks: Talks::default(),
            leases: Leases::new(now),
            shows: Shows::new(engine_version, certificates, now),
            engine: engine_side,
            manager: Manager { signals, notify: Notify::from_environment(now) },
            stopping: None,
        })
    }

    /// Serves until it has to end.
    pub fn run(mut self) -> Result<(), CannotServe> {
        let mut events = Vec::new();
        let mut buffer = [0; SHARE];
        self.begin_cluster()?;
        self.look_at_engine()?;
        while !self.is_over() && !self.is_late() {
            let before = Instant::now();
            let is_all = self.wait(&mut events)?;
            self.desk.now = Instant::now();
            self.check_lease();
            let (comers, others): (Vec<_>, Vec<_>) = events.iter().partition(|event| is_door(event.key));
            for event in others {
                self.happened(event, &mut buffer)?;
            }
            self.take_turns();
            if !comers.is_empty() || self.talks.has_backlog() {
                self.write_all(&mut buffer)?; // nobody waits for those who come, or who say much
                comers.into_iter().for_each(|event| self.let_in(event.key, &mut buffer));
                self.take_backlog();
            }
            self.pass_time(is_all.then_some(before), &mut buffer)?;
            self.write_all(&mut buffer)?;
        }
        self.desk.log.say(&Event::Stopped);
        Ok(())
    }

    /// Waits for what happens: true if that is all.
    fn wait(&mut self, events: &mut Vec<Ready>) -> io::Result<bool> {
        let time = self.next_time();
        let whom = if self.desk.questions.askers > 0 { For::Engine } else { For::Clients };
        if let Some(moment) = self.awake.look(whom, time) {
            let is_all = self.poller.look(moment, events)?;
            self.awake.note(whom, !events.is_empty());
            if !events.is_empty() {
                return Ok(is_all);
            }
        }
        self.poller.wait(Some(time), events)
    }

    fn happened(&mut self, event: &Ready, buffer: &mut [u8; SHARE]) -> Result<(), CannotServe> {
        match event.key {
            SIGNALS => {
                while let Some(signal) = self.manager.signals.next_signal() {
                    self.hear(signal);
                }
            }
            ENGINE => self.hear_engine()?,
            LOG => self.hear_log()?,
            REMARKS => self.log_remarks(),
            GRANTS => self.hear_record(),
            ENGINE_INPUT | LOG_INPUT => {} // what they take is written at the end of each round
            PAGE => self.let_visitors_in(),
            key if key >= VISITORS => self.visit(key),
            key if key >= PORCH => self.hear_more(key, buffer),
            key => self.read(key - CONNECTIONS, event, buffer),
        }
        Ok(())
    }

    /// Whether all processes have ended, and are not started any more.
    fn is_over(&self) -> bool {
        self.desk.engine.is_over() && self.desk.mode.is_over()
    }

    /// Whether the server was to end long ago: a process may hang in the system, where nothing ends it.
    fn is_late(&self) -> bool {
        self.stopping.is_some_and(|until| until + LONGEST_KILL <= self.desk.now)
    }

    /// Whether the engine has answered how all locks are, or this server is in the log that it has with others.
    fn is_engine_ready(&self) -> bool {
        self.desk.mode.is_ready(self.desk.engine.is_running() && self.engine.is_begun)
    }

    fn next_time(&self) -> Duration {
        if self.talks.has_turns() || self.desk.has_next_turn(self.stopping.is_some()) {
            return Duration::ZERO;
        }
        let now = self.desk.now;
        let grace = self.engine.grace_until.filter(|_| self.is_engine_ready());
        let [log, entry] = self.desk.mode.next_times(now);
        let disk = self.desk.grants.as_ref().and_then(Grants::patience);
        let times = [self.desk.engine.next_look(now), log, entry, grace, self.entrance.opens(), self.stopping, disk];
        let next = times.into_iter().flatten().fold(self.leases.next(), Instant::min);
        next.saturating_duration_since(now)
    }

    /// `seen`: everything that had come by then was seen. This server may have been stopped since, so nothing else shows which
    /// client is silent.
    fn pass_time(&mut self, seen: Option<Instant>, buffer: &mut [u8; SHARE]) -> Result<(), CannotServe> {
        let now = self.desk.now;
        self.look_at_engine()?;
        self.pump()?;
        if self.is_engine_ready() && self.engine.grace_until.is_some_and(|until| until <= now) {
            self.end_grace();
        }
        self.entrance.open_again(&self.poller, now);
        self.watch_engine(seen);
        self.desk.grants.iter_mut().for_each(|grants| grants.pass_time(now));
        if self.is_engine_ready() {
            self.manager.notify.note_ready();
        }
        self.manager.notify.note_round(now);
        if let Some(seen) = seen.filter(|_| self.leases.is_due(now)) {
            self.sweep(seen, buffer);
        }
        self.go_on_stopping();
        Ok(())
    }

    /// What is looked at from time to time, after the connections.
    fn sweep_rest(&mut self, now: Instant) {
        self.log_removals();
        self.log_certificates();
        self.take_rules();
        if self.people.is_asking() {
            self.leases.look_at(now + LOOK_FOR_ACCOUNTS);
        }
        self.sweep_porch();
        self.sweep_cluster();
        if self.is_engine_ready() {
            self.desk.end_absent_sessions();
        }
        self.shows.sweep(now).into_iter().for_each(|deadline| self.leases.note(deadline));
    }

    fn hear(&mut self, signal: Signal) {
        match signal {
            Signal::Terminate => self.stop("SIGTERM"),
            Signal::Interrupt => self.stop("SIGINT"),
            _ => {
                self.read_rules_again();
                self.look_at_record();
            }
        }
    }

    /// From now on no client is let in and nothing is read; what was asked is answered.
    fn stop(&mut self, why: &str) {
        if self.stopping.is_some() {
            return;
        }
        self.desk.log.say(&Event::Stopping { why });
        self.manager.notify.note_stopping();
        self.stopping = Some(self.desk.now + LONGEST_STOP);
        self.entrance.close();
        self.porch.clear();
        self.talks.touch_all();
        if !self.desk.engine.is_running() && self.desk.mode.in_log().is_none() {
            self.part_all(End::Stop);
        }
    }

    fn go_on_stopping(&mut self) {
        let Some(until) = self.stopping else { return };
        if until <= self.desk.now {
            self.lose_engine(false);
        }
        match self.desk.mode {
            Mode::Alone(_) => self.desk.engine.end(),
            Mode::InLog(_) => self.stop_cluster(),
        }
    }
}
