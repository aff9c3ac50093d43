//! A server that is one of several: all read one log, in etcd, and do what it says, each with an engine of its own.
//!
//! What clients ask goes into an entry of the log. When the entry comes back, it is given to the engine, as those of the other
//! servers are, and the engine's answers go to the own clients. So all engines have one history.

mod apply;
mod checkpoint;
mod common;
mod desk;
mod digests;
mod entries;
mod log;
mod member;
mod mirror;
mod owner;
mod place;
mod reading;
mod replica;
mod sessions;
mod words;
mod writer;

pub use apply::Applied;
use apply::Given;
pub use checkpoint::{holders, BadCheckpoint, Checkpoint, Folder, NoFolder};
pub use common::{agrees, list, most_names};
pub use digests::{Digests, Verdict};
use entries::VERSION;
pub use entries::{is_name, Entry, Key, Line, Server, Session};
pub use log::Told;
use member::Member;
pub use mirror::{Effect, Mirror, Standing};
pub use owner::{Owner, Who};
pub use place::{Other, Place};
pub use reading::Read;
use reading::{Reading, MOST_FOR_ENGINE};
use replica::Replica;
pub use replica::{Block, Phase};
pub use sessions::{draw, Owns};
pub use words::{OverEtcd, ReadingOverEtcd};
use writer::Writer;

use crate::board::Why;
use crate::engine::Engine;
use crate::names::Names;
use crate::pages::InLog;
use crate::settings::Settings;
use std::collections::BTreeSet;
use std::fs::File;
use std::io;
use std::rc::Rc;
use std::time::{Duration, Instant};
use wozgirt_engine::Client;

/// The longest line of the process that speaks to etcd.
const LONGEST_LOG_LINE: usize = 8 << 20;
/// The longest list of locks, which has to go into an entry.
pub const LONGEST_LIST: usize = 200_000;
/// How many locks may be held of names that are not in the list, if nothing is said.
const MOST_NAMES: u32 = 65_536;
/// Numbers that no client has had.
struct Numbers {
    last: Client,
    random: File,
}

/// What a server has that is one of several.
pub struct Cluster {
    /// The settings of this server that are those of all; the log may have a longer list of locks.
    pub with: String,
    /// The list of locks that its engine has.
    pub list: String,
    /// The process that speaks to etcd.
    pub log: Engine,
    /// Which log it is, and how far it was read.
    pub place: Place,
    /// What was read of it, and waits.
    pub reading: Reading,
    /// This server in it, and the others.
    pub member: Member,
    /// What it says.
    pub applied: Applied,
    /// What the engine was given.
    pub mirror: Mirror,
    /// What it makes of that.
    pub replica: Replica,
    /// The sessions of this server's clients.
    pub owns: Owns,
    numbers: Numbers,
    writer: Writer,
}

impl Cluster {
    /// Nothing is read and nobody is started.
    pub fn new(settings: &Settings, names: &Names, now: Instant) -> Result<Option<Cluster>, NoFolder> {
        let Some(words) = &settings.cluster else { return Ok(None) };
        let segment = settings.engine.segment.map_or("-".into(), |lines| lines.to_string());
        let faults = u8::from(settings.engine.permits_faults);
        let list = names.list();
        if list.len() > LONGEST_LIST {
            return Err(NoFolder::Locks);
        }
        let most = names.any().map(|_| format!(" {}", settings.engine.most_names.unwrap_or(MOST_NAMES)));
        let most = most.unwrap_or_default();
        Ok(Some(Cluster {
            with: format!("{VERSION} {} {segment} {faults} {list}{most}", words.checkpoint),
            list,
            log: Engine::new(words.program.clone(), words.words(), LONGEST_LOG_LINE, now),
            replica: Replica::new(Folder::open(&settings.journal)?),
            place: Place::open(&settings.journal, now)?,
            reading: Reading::default(),
            member: Member::new(now),
            applied: Applied::new(words.checkpoint),
            mirror: Mirror::default(),
            owns: Owns::default(),
            numbers: Numbers { last: 0, random: File::open("/dev/urandom")? },
            writer: Writer::default(),
        }))
    }

    /// How many locks this server's own list has.
    pub fn count(&self) -> usize {
        list(&self.with).split(',').count()
    }

    /// Whether clients are heard.
    pub fn is_ready(&self) -> bool {
        self.replica.is_restored && self.member.lease.is_some()
    }

    /// What is shown of it.
    pub fn view(&self) -> InLog {
        InLog {
            is_in_log: self.is_ready(),
            is_full: self.reading.is_full,
            position: self.replica.digests.last().0,
            checkpoint: self.replica.saved.1,
            alive: self.member.alive.as_ref().map_or(0, BTreeSet::len),
            contradictions: self.replica.contradictions,
        }
    }

    /// How many lines wait to be put into the log.
    pub fn waiting_lines(&self) -> usize {
        self.writer.waiting()
    }

    /// Whether all that was asked is answered.
    pub fn is_idle(&self) -> bool {
        self.writer.is_idle() && self.reading.is_empty() && self.mirror.is_idle()
    }

    /// The line goes into the log with the next entry, if this server is in it.
    pub fn put(&mut self, line: Line) {
        if self.member.me.is_some() {
            self.writer.put(line);
        }
    }

    /// The session of this key ends with the next entry, and this is why.
    pub fn put_end(&mut self, key: Key, why: Why) {
        self.owns.note_end(key, why);
        self.put(Line::Gone(key));
    }

    /// A number for a client that comes.
    pub fn next_client(&mut self) -> Client {
        self.numbers.last += 1;
        self.numbers.last
    }

    /// A key for a client that gave none.
    pub fn draw(&mut self) -> io::Result<Key> {
        draw(&mut self.numbers.random)
    }

    /// What the client with this key has.
    pub fn standing(&self, key: Key) -> Standing {
        self.owns.session(key).map_or_else(Standing::default, |session| self.mirror.standing(session))
    }

    /// What the process that speaks to etcd gets first.
    pub fn known(&self) -> String {
        self.place.known().map_or("known - 0 0 0".into(), |it| {
            format!("known {} {} {} {}", it.identity, it.position, it.revision, it.incarnation)
        })
    }

    /// This server begins in the log.
    pub fn join(&mut self, server: Server) {
        self.member.me = Some(server);
        self.put(Line::With(self.with.clone()));
    }

    /// This server is in the log no longer.
    pub fn leave(&mut self) {
        self.member.leave();
        self.writer = Writer::default();
        self.reading.clear();
        self.owns = Owns::default();
        self.mirror.forget_clients();
    }

    /// The engine begins again at the last checkpoint, and so has the log to be read again from there.
    pub fn begin_again(&mut self) {
        self.replica.begin_again();
        self.mirror.forget();
    }

    /// Gives a sign of life, after which the lease is renewed; not while the engine owes an answer for as long as this.
    pub fn say_alive(&mut self, now: Instant) {
        if let Some(number) = self.member.next_sign(self.mirror.is_idle(), now) {
            self.log.ask_line(format_args!("here {number}"));
        }
    }

    /// The next entry, if there is something to say and it is time; not before the log is known to be the one that was read.
    pub fn next_entry(&mut self, now: Instant) -> Option<Entry> {
        if !self.place.is_right() {
            return None;
        }
        self.writer.next(self.member.me.as_ref()?, &self.replica.digests, now)
    }

    /// The next entry of the log. Nothing if it is not the next one.
    pub fn receive(&mut self, position: u64, revision: u64, text: &str, now: Instant) -> Option<()> {
        let read = Read { position, revision, entry: text.parse().ok() };
        let read = self.reading.put(read, self.applied.position)?;
        if let Some(entry) = &read.entry {
            self.writer.note(entry, self.member.me.as_ref(), now);
        }
        Some(())
    }

    /// The engine is given this. Answers that only clients of the writer get are not for those of other servers, of which one may be
    /// on its way to this one.
    pub fn give(&mut self, given: Given, is_own: bool) {
        if let Given::Here(key, session) = given {
            let owner = self.applied.sessions.get(&key).map(|known| known.owner.clone());
            self.mirror.begins(session, owner.unwrap_or_default().guest());
        }
        match given {
            Given::Here(..) | Given::Closed(_) | Given::Gone(_) if !is_own => return,
            Given::Here(key, session) => self.owns.arrive(key, session),
            Given::Do { key, session, .. } if is_own => self.owns.name(key, session),
            _ => {}
        }
        self.mirror.give(given);
    }

    /// The sessions of servers that are over by this entry.
    pub fn sessions_lost_by<'a>(&'a self, entry: &'a Entry) -> impl Iterator<Item = Session> + 'a {
        let over =
            entry.lines.iter().filter_map(|line| if let Line::Server(server) = line { Some(server) } else { None });
        over.flat_map(|server| self.applied.sessions_of(server))
    }

    /// Sessions that have gone on at other servers: those connections of this one where they were.
    pub fn lose_sessions(&mut self, moved: &[(Key, Server)]) -> Vec<Client> {
        let own = moved.iter().filter(|(_, before)| Some(before) == self.member.me.as_ref());
        own.filter_map(|(key, _)| self.owns.moved(*key)).collect()
    }

    /// Whether this server is one of these.
    pub fn is_among(&self, servers: &[Server]) -> bool {
        servers.iter().any(|server| Some(server) == self.member.me.as_ref())
    }

    /// The engine has done an entry: what another server has claimed of a position by it, and what is known of that.
    pub fn done(&mut self, position: u64, digest: &str) -> Result<Option<(Rc<str>, u64, Verdict)>, Other> {
        self.place.done(position, digest)?;
        self.replica.digests.note(position, digest.into());
        let Some(block) = self.replica.blocks.pop_front() else { return Ok(None) };
        if block.is_checkpoint {
            self.replica.phase = Phase::Asking(Vec::new());
        }
        let Some((name, position, digest)) = block.claim else { return Ok(None) };
        let verdict = self.replica.digests.compare(&name, position, &digest);
        self.replica.contradictions += u64::from(matches!(verdict, Verdict::Other));
        Ok(Some((name, position, verdict)))
    }

    /// When the next entry is due, if one waits.
    pub fn entry_due(&self) -> Option<Instant> {
        self.writer.due()
    }

    /// The next entry for the engine, if it may be given one.
    pub fn next_read(&mut self, for_engine: usize) -> Option<Read> {
        let is_given = self.replica.takes_entries() && for_engine < MOST_FOR_ENGINE;
        is_given.then(|| self.reading.take()).flatten()
    }

    /// Servers that are not alive for as long as this: they are over.
    pub fn declare(&mut self, grace: Duration, now: Instant) {
        for server in self.member.over(self.applied.servers.keys(), grace, now) {
            self.writer.put(Line::Server(server));
        }
    }
}
