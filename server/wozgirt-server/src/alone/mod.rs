//! A single server: the sessions of its clients, which outlive its engine and the server itself.
//!
//! An input of a session goes to the engine with the session's number as its key, so the journal has what was done last of each. A
//! [`Store`] beside the journal records whose each session is, and what the engine answered it. When the engine starts, it lists the
//! open holds. If sessions have some of them, the engine starts once more, and reads a file that says whose they are.
//!
//! **The rule.** An open hold is a session's if exactly this lock and token were reported to that session, or if a remark of the journal
//! says that an input of this session was answered with them. Every other open hold is nobody's until the grace is over, which is at least
//! as long as the longest lease: a client that knows of it has stopped by then. Nothing is concluded from a queue, a label, or another
//! token. Of two holds of a lock the one with the smaller token is over. Whether a hold is open only the journal says, so no `released` of
//! a remark ends one. [`Alone::hear_remarks`] and [`Alone::settle`] are this rule.

mod desk;
mod holds;
mod session;
mod store;
#[cfg(test)]
mod tests;

pub use session::{Ask, At, Ended, Place, Session, What};
pub use store::{Line, Store};

use crate::cluster::{Key, Owner, Who};
use crate::shares::{Counts, Share};
use std::collections::{BTreeMap, BTreeSet, HashMap};
use std::io;
use std::path::PathBuf;
use std::time::{Duration, Instant};
use wozgirt_engine::{Answer, Answered, Client, Label, Lock, StateLine, Token};

/// What the engine is started for.
#[derive(Debug, Clone, Copy, PartialEq, Eq)]
pub enum Start {
    /// To list the open holds.
    Looking,
    /// It has listed them, and is to end.
    Turning,
    /// To serve.
    Serving,
}

/// Why there is no session of a key.
#[derive(Debug, Clone, Copy, PartialEq, Eq)]
pub enum NoSession {
    /// It is another client's.
    Others,
    /// There are too many, or this user, or address, has its part of them.
    Full,
    /// None can be kept.
    Unkept,
}

/// The sessions of a single server.
pub struct Alone {
    store: Option<Store>,
    sessions: BTreeMap<Client, Session>,
    keys: HashMap<Key, Client>,
    /// How many there may be, and on whose account those are that there are.
    share: Share,
    counts: Counts,
    /// The last number that a client or a session was given.
    pub last: Client,
    last_order: u64,
    /// What the engine runs for.
    pub start: Start,
    /// Holds of sessions that are over, and the operators that wait for an answer about them.
    ended: Vec<Ended>,
    /// Sessions whose lines are written next: one for each, however often they have changed.
    changed: BTreeSet<Client>,
    /// All is to be written anew.
    is_stale: bool,
    /// The journal has remarks that the file on the disk has not, and the engine drops them when it starts.
    has_news: bool,
}

impl Alone {
    /// With the sessions of this store; without one there are none. There are at most this many, and an eighth more for those that have few.
    pub fn new(store: Option<Store>, most: usize) -> io::Result<Alone> {
        let mut alone = Alone {
            sessions: BTreeMap::new(),
            keys: HashMap::new(),
            share: Share::beyond(most),
            counts: Counts::default(),
            last: 0,
            last_order: 0,
            start: Start::Serving,
            ended: Vec::new(),
            changed: BTreeSet::new(),
            is_stale: false,
            has_news: false,
            store: None,
        };
        if let Some(store) = store {
            store.read()?.into_iter().for_each(|line| alone.read(line));
            alone.store = Some(store);
        }
        Ok(alone)
    }

    /// One line of the store.
    fn read(&mut self, line: Line) {
        match line {
            Line::Last(number) => self.last = self.last.max(number),
            Line::Session(number, key, lease, owner) => {
                self.last = self.last.max(number);
                if let Some(session) = self.sessions.get_mut(&number) {
                    (session.lease, session.owner) = (lease, owner);
                } else {
                    self.insert(number, Session::new(key, owner, lease, At::Away(None)));
                }
            }
            Line::Has(StateLine::Hold { lock, token, client }) => {
                self.change(client, |session| session.hold(lock, token));
            }
            Line::Has(StateLine::Wait { client, lock, label }) => self.wait(client, lock, label),
            Line::Has(StateLine::Did { key, number, answer }) => {
                let told = Answered::parse(&answer).ok().map(|it| it.answer);
                self.change(key, |session| session.did(number, told, &answer));
            }
            Line::Has(StateLine::At { .. }) => {}
            Line::Free(number, lock) => self.change(number, |session| session.free(&lock)),
            Line::Over(number) => _ = self.remove(number),
            Line::Nothing => {}
        }
    }

    fn change(&mut self, number: Client, change: impl FnOnce(&mut Session)) {
        if let Some(session) = self.sessions.get_mut(&number) {
            change(session);
        }
    }

    fn wait(&mut self, number: Client, lock: Lock, label: Label) {
        self.last_order += 1;
        let order = self.last_order;
        self.change(number, |session| session.wait(Place { lock, label, order }));
    }

    fn insert(&mut self, number: Client, session: Session) {
        self.counts.add(session.guest.clone());
        self.keys.insert(session.key, number);
        self.sessions.insert(number, session);
    }

    fn remove(&mut self, number: Client) -> Option<Session> {
        let session = self.sessions.remove(&number)?;
        self.counts.remove(&session.guest);
        if self.keys.get(&session.key) == Some(&number) {
            self.keys.remove(&session.key);
        }
        Some(session)
    }

    /// A number that no client has had.
    pub fn next_number(&mut self) -> Client {
        self.last += 1;
        self.last
    }

    /// The session with this number.
    pub fn session(&self, number: Client) -> Option<&Session> {
        self.sessions.get(&number)
    }

    /// The same, to be changed.
    pub fn session_mut(&mut self, number: Client) -> Option<&mut Session> {
        self.sessions.get_mut(&number)
    }

    /// The client of this key has come to a connection: the number of its session, and the connection where it was.
    pub fn come(
        &mut self,
        key: Key,
        who: Who,
        lease: Duration,
        client: Client,
    ) -> Result<(Client, Option<Client>), NoSession> {
        let Some(store) = &mut self.store else { return Err(NoSession::Unkept) };
        if let Some((number, session)) =
            self.keys.get(&key).and_then(|number| Some((number, self.sessions.get_mut(number)?)))
        {
            if !session.owner.admits(&who) {
                return Err(NoSession::Others);
            }
            let before = std::mem::replace(&mut session.at, At::Here(client));
            self.changed.insert(*number);
            return Ok((*number, if let At::Here(before) = before { Some(before) } else { None }));
        }
        if !self.share.permits(&self.counts, &who.clone().into()) {
            return Err(NoSession::Full);
        }
        let mut owner = Owner::default();
        owner.admits(&who);
        // not that of its connection: an answer to what another session of that asked may be on its way
        self.last += 1;
        let number = self.last;
        store.put(&Line::Session(number, key, lease, owner.clone()));
        self.insert(number, Session::new(key, owner, lease, At::Here(client)));
        Ok((number, None))
    }

    /// The client may be away for this time.
    pub fn set_lease(&mut self, number: Client, lease: Duration) {
        if let Some(session) = self.sessions.get_mut(&number).filter(|session| session.lease != lease) {
            session.lease = lease;
            self.changed.insert(number);
        }
    }

    /// The session is over for its key; the engine may not have heard that.
    pub fn end(&mut self, number: Client) {
        if let Some(session) = self.sessions.get_mut(&number) {
            session.is_left = true;
            if self.keys.get(&session.key) == Some(&number) {
                self.keys.remove(&session.key);
            }
            self.put(&Line::Over(number));
        }
    }

    /// The session is over, and the engine has heard that. What it answers for it from now on is not heard.
    pub fn forget(&mut self, number: Client) -> Option<Session> {
        let session = self.remove(number)?;
        self.ended.extend(session.asked.iter().filter_map(|ask| match &ask.what {
            What::End(operator, lock, token) => {
                Some(Ended { operator: *operator, session: number, lock: lock.clone(), token: *token })
            }
            _ => None,
        }));
        Some(session)
    }

    /// Holds whose operators have to learn that they ended with their sessions.
    pub fn take_ended(&mut self) -> Vec<Ended> {
        std::mem::take(&mut self.ended)
    }

    /// Puts a line among those that are written next.
    pub fn put(&mut self, line: &Line) {
        if let Some(store) = &mut self.store {
            store.put(line);
        }
    }

    /// The session was granted what it waited for, or had before.
    pub fn hold(&mut self, number: Client, lock: Lock, token: Token) {
        self.change(number, |session| session.hold(lock.clone(), token));
        self.put(&Line::Has(StateLine::Hold { lock, token, client: number }));
    }

    /// The session waits, and the input that was answered so is done.
    pub fn place(&mut self, number: Client, lock: Lock, label: Label) {
        self.wait(number, lock.clone(), label);
        self.put(&Line::Has(StateLine::Wait { client: number, lock, label }));
    }

    /// An input was done.
    pub fn did(&mut self, number: Client, input: u64, answer: Answer<'_>) {
        let text = Answered { client: number, answer }.to_string();
        self.change(number, |session| session.did(input, Some(answer), &text));
        self.put(&Line::Has(StateLine::Did { key: number, number: input, answer: text }));
    }

    /// The session holds the lock, or waits for it, no longer.
    pub fn free(&mut self, number: Client, lock: Lock) {
        let line = Line::Free(number, lock);
        self.put(&line);
        self.read(line);
    }

    /// Writes what is new, before any client gets an answer about it.
    pub fn write(&mut self) -> io::Result<()> {
        for number in std::mem::take(&mut self.changed) {
            if let Some(it) = self.sessions.get(&number).filter(|it| !it.is_left) {
                let line = Line::Session(number, it.key, it.lease, it.owner.clone());
                self.put(&line);
            }
        }
        let Some(store) = &mut self.store else { return Ok(()) };
        if !store.write()? && !self.is_stale {
            return Ok(());
        }
        self.is_stale = true; // until that is begun
        let lines = self.all();
        self.store.as_mut().map_or(Ok(()), |store| store.begin_to_replace(&lines))?;
        self.is_stale = false;
        Ok(())
    }

    /// The lines that bring all of it back.
    fn all(&self) -> Vec<Line> {
        let mut waits: Vec<(Client, Place)> =
            self.sessions.iter().filter_map(|(number, session)| Some((*number, session.waits.clone()?))).collect();
        waits.sort_unstable_by_key(|(_, place)| place.order);
        let waits =
            waits.into_iter().map(|(client, Place { lock, label, .. })| StateLine::Wait { client, lock, label });
        let kept = || self.sessions.iter().filter(|(_, session)| !session.is_left);
        let sessions = kept().map(|(number, it)| Line::Session(*number, it.key, it.lease, it.owner.clone()));
        let has = kept().flat_map(|(number, session)| session.all(*number));
        [Line::Last(self.last)].into_iter().chain(sessions).chain(has).chain(waits.map(Line::Has)).collect()
    }

    /// The engine starts: what the journal says of inputs that were done is heard, and written to the disk, since the engine drops it.
    /// Where the disk has all but what is the same as before, it need not take it.
    pub fn prepare(&mut self) -> io::Result<()> {
        let Some(store) = &self.store else { return Ok(()) };
        let remarks = if self.sessions.is_empty() { Vec::new() } else { store.remarks()? };
        self.has_news |= self.hear_remarks(remarks); // it may be that those of an earlier try are not kept yet
        let left: Vec<Client> = self.sessions.iter().filter(|(_, it)| it.is_left).map(|(number, _)| *number).collect();
        left.into_iter().for_each(|number| _ = self.remove(number));
        for session in self.sessions.values_mut() {
            session.forget_asked();
            session.at = At::Away(None);
        }
        let has_holds = self.sessions.values().any(|session| !session.holds.is_empty());
        self.start = if has_holds { Start::Looking } else { Start::Serving };
        let lines = self.all();
        let Some(store) = &mut self.store else { return Ok(()) };
        match store.replace(&lines) {
            Err(fault) if self.has_news || !store.is_whole() => return Err(fault),
            Err(_) => self.is_stale = true,
            Ok(()) => self.has_news = false,
        }
        Ok(())
    }

    /// The journal's remarks of inputs of sessions, in their order: whether they bring anything new.
    fn hear_remarks(&mut self, remarks: Vec<StateLine>) -> bool {
        let mut has_news = false;
        for line in remarks {
            let StateLine::Did { key, number, answer } = line else { continue };
            let Some(session) = self.sessions.get_mut(&key) else { continue };
            let told = Answered::parse(&answer).ok().map(|it| it.answer);
            has_news |= session.was_done(number, told, &answer);
            let lock = session.unlabelled.as_ref().map(|it| it.lock.clone());
            if let Some((lock, label)) = lock.zip(session.label(number)) {
                self.wait(key, lock, label);
            }
        }
        has_news
    }

    /// These holds are open: no other is a session's any more, and none that two sessions claim. Returns whether any is a session's.
    pub fn settle(&mut self, open: &[(Lock, Token)]) -> bool {
        let mut claims: HashMap<(Lock, Token), usize> = open.iter().map(|hold| (hold.clone(), 0)).collect();
        for hold in self.sessions.values().flat_map(|session| session.holds.iter()) {
            claims.entry(hold.clone()).and_modify(|count| *count += 1);
        }
        for session in self.sessions.values_mut() {
            session.holds.retain(|hold| claims.get(hold) == Some(&1));
        }
        self.is_stale = true;
        self.sessions.values().any(|session| !session.holds.is_empty())
    }

    /// Writes the file with the holds that are sessions', which the engine reads: its path.
    pub fn write_holders(&self) -> io::Result<Option<PathBuf>> {
        let Some(store) = &self.store else { return Ok(None) };
        let lines = self.sessions.iter().flat_map(|(number, session)| session.hold_lines(*number));
        let text: String = lines.map(|line| format!("{line}\n")).collect();
        store.write_holders(&text)?;
        Ok(Some(store.holders()))
    }

    /// What the engine gets first: what was done, and which sessions wait, in their order.
    pub fn lines(&mut self) -> Vec<StateLine> {
        let mut lines = Vec::new();
        let mut waits = Vec::new();
        for (number, session) in &mut self.sessions {
            lines.extend(session.done_line(*number));
            if let Some(Place { lock, label, order }) = session.waits.clone() {
                waits.push((order, StateLine::Wait { client: *number, lock: lock.clone(), label }));
                session.asked.push_back(Ask { client: 0, what: What::Place(lock, label) });
            }
        }
        waits.sort_unstable_by_key(|(order, _)| *order);
        lines.extend(waits.into_iter().map(|(_, line)| line));
        lines
    }

    /// All sessions with their holds, for a board.
    pub fn holds(&self) -> impl Iterator<Item = (Client, &Lock, Token)> + '_ {
        self.sessions.iter().flat_map(|(number, it)| it.holds.iter().map(|(lock, token)| (*number, lock, *token)))
    }

    /// How many sessions there are, and on whose account.
    pub fn counts(&self) -> &Counts {
        &self.counts
    }

    /// Those whose clients are away, in the order of their numbers.
    pub fn away(&self) -> impl Iterator<Item = (Client, &Session)> + '_ {
        let away = self.sessions.iter().filter(|(_, it)| matches!(it.at, At::Away(_)) && !it.is_left);
        away.map(|(number, session)| (*number, session))
    }

    /// Clients can come back from now on.
    pub fn begin(&mut self, now: Instant) {
        for session in self.sessions.values_mut() {
            if session.at == At::Away(None) {
                session.at = At::Away(Some(now + session.lease));
            }
        }
    }

    /// Those whose clients have not come back in time.
    pub fn late(&self, now: Instant) -> Vec<Client> {
        let is_late = |it: &Session| !it.is_left && matches!(it.at, At::Away(Some(until)) if until <= now);
        self.sessions.iter().filter(|(_, session)| is_late(session)).map(|(number, _)| *number).collect()
    }
}
