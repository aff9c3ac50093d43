//! The sessions of this server's own clients.

use super::entries::{Key, Session};
use super::mirror::Effect;
use super::owner::Who;
use crate::board::Why;
use std::collections::{HashMap, HashSet, VecDeque};
use std::fs::File;
use std::io::{self, Read};
use std::time::Instant;
use wozgirt_engine::Client;

/// A key that no client has, for one that gives none.
pub fn draw(random: &mut File) -> io::Result<Key> {
    let mut bytes = [0; 8];
    random.read_exact(&mut bytes)?;
    Ok(Key::from_le_bytes(bytes))
}

/// Where a client of this server is.
#[derive(Debug, PartialEq, Eq)]
enum Own {
    /// At this connection.
    Here(Client),
    /// It has until then to come back.
    Away(Instant),
}

/// The clients of this server, by their keys.
#[derive(Debug, Default)]
pub struct Owns {
    all: HashMap<Key, Own>,
    /// The client that came with the key last.
    whos: HashMap<Key, Who>,
    /// The number of the client's last session, as soon as the log has given it.
    sessions: HashMap<Key, Session>,
    keys: HashMap<Session, Key>,
    /// Those that come from another server, until the engine has done what was said for them there.
    arriving: HashSet<Session>,
    /// Why sessions end of whom the log has not said that yet.
    ends: HashMap<Session, Why>,
    /// The connections where sessions have begun, until the log says so.
    pub opening: VecDeque<Client>,
}

impl Owns {
    /// Whether no other client has come here with this key.
    pub fn admits(&self, key: Key, who: &Who) -> bool {
        !self.all.contains_key(&key) || self.whos.get(&key) == Some(who)
    }

    /// The client is at this connection: the one where it was before.
    pub fn come(&mut self, key: Key, who: Who, client: Client) -> Option<Client> {
        self.whos.insert(key, who);
        match self.all.insert(key, Own::Here(client)) {
            Some(Own::Here(before)) => Some(before),
            _ => None,
        }
    }

    /// The log has given the client's session this number.
    pub fn name(&mut self, key: Key, session: Session) {
        self.sessions.insert(key, session);
        self.keys.insert(session, key);
    }

    /// The same, and it begins or continues here as soon as the engine has done what was said before.
    pub fn arrive(&mut self, key: Key, session: Session) {
        if !self.keys.contains_key(&session) {
            self.arriving.insert(session);
        }
        self.name(key, session);
    }

    /// What the engine has done: sessions that begin here by that.
    pub fn note_arrivals(&mut self, effects: &[Effect<'_>]) {
        for effect in effects {
            if let Effect::Here(_, session) = effect {
                self.arriving.remove(session);
            }
        }
    }

    /// The session is over.
    pub fn forget(&mut self, session: Session) {
        self.ends.remove(&session);
        self.arriving.remove(&session);
        if let Some(key) = self.keys.remove(&session) {
            if self.sessions.get(&key) == Some(&session) {
                self.sessions.remove(&key);
            }
        }
    }

    /// The client's session ends as soon as the log says so.
    pub fn note_end(&mut self, key: Key, why: Why) {
        if let Some(session) = self.sessions.get(&key) {
            self.ends.insert(*session, why);
        }
    }

    /// So does one of a server that is over.
    pub fn note_end_with_server(&mut self, session: Session) {
        self.ends.insert(session, Why::Server);
    }

    /// Why the session ends, if this server has to say so.
    pub fn end_of(&self, session: Session) -> Option<Why> {
        self.ends.get(&session).copied()
    }

    /// Whether what the engine answers for the session now was said to this server.
    pub fn has(&self, session: Session) -> bool {
        let is_own = self.keys.get(&session).is_some_and(|key| self.all.contains_key(key));
        is_own && !self.arriving.contains(&session)
    }

    /// The number of the client's session.
    pub fn session(&self, key: Key) -> Option<Session> {
        self.sessions.get(&key).copied()
    }

    /// The connection of the client with this key.
    pub fn client(&self, key: Key) -> Option<Client> {
        match self.all.get(&key) {
            Some(Own::Here(client)) => Some(*client),
            _ => None,
        }
    }

    /// The connection of the session's client.
    pub fn client_of(&self, session: Session) -> Option<Client> {
        self.keys.get(&session).and_then(|key| self.client(*key))
    }

    /// The connection is gone, and the client may come back until then.
    pub fn await_client(&mut self, key: Key, client: Client, until: Instant) {
        if self.client(key) == Some(client) {
            self.all.insert(key, Own::Away(until));
        }
    }

    /// The client's connection is gone since it said that it comes: it may come back until then.
    pub fn await_gone(&mut self, key: Key, until: Instant) {
        self.all.entry(key).or_insert(Own::Away(until));
    }

    /// The client is not this server's any more: whether it was, at this connection.
    pub fn go(&mut self, key: Key, client: Client) -> bool {
        let is_here = self.client(key) == Some(client);
        if is_here {
            self.remove(key);
        }
        is_here
    }

    /// The client has come to another server: the connection where it was.
    pub fn moved(&mut self, key: Key) -> Option<Client> {
        self.sessions.get(&key).and_then(|session| self.ends.remove(session));
        match self.remove(key) {
            Some(Own::Here(client)) => Some(client),
            _ => None,
        }
    }

    fn remove(&mut self, key: Key) -> Option<Own> {
        self.whos.remove(&key);
        self.all.remove(&key)
    }

    /// The clients that are away: their keys, and until when each may come back.
    pub fn away(&self) -> impl Iterator<Item = (Key, Instant)> + '_ {
        self.all.iter().filter_map(|(key, own)| match own {
            Own::Away(until) => Some((*key, *until)),
            Own::Here(_) => None,
        })
    }

    /// The client that is away does not come back any more: whether it was away.
    pub fn end_away(&mut self, key: Key) -> bool {
        let is_away = matches!(self.all.get(&key), Some(Own::Away(_)));
        if is_away {
            self.remove(key);
        }
        is_away
    }

    /// Takes the clients that have not come back in time.
    pub fn take_late(&mut self, now: Instant) -> Vec<Key> {
        let is_late = |own: &Own| matches!(own, Own::Away(until) if *until <= now);
        let mut late: Vec<Key> = self.all.iter().filter(|(_, own)| is_late(own)).map(|(key, _)| *key).collect();
        late.sort_unstable();
        for key in &late {
            self.remove(*key);
        }
        late
    }
}

#[cfg(test)]
mod tests {
    use super::*;

    #[test]
    fn a_client_comes_and_goes() {
        let (mut owns, start) = (Owns::default(), Instant::now());
        assert!(owns.admits(7, &Who::Unknown));
        let second = std::time::Duration::from_secs(1);
        assert_eq!((owns.come(7, Who::User(0), 1), owns.client(7), owns.client(8)), (None, Some(1), None));
        assert!(owns.admits(7, &Who::User(0)) && !owns.admits(7, &Who::User(1)));
        owns.await_client(7, 1, start + second);
        assert_eq!((owns.client(7), owns.take_late(start)), (None, vec![]));
        assert_eq!(owns.away().collect::<Vec<_>>(), [(7, start + second)]);
        assert_eq!(owns.come(7, Who::User(0), 2), None);
        assert_eq!(owns.come(7, Who::User(0), 3), Some(2));
        owns.await_client(7, 2, start + second); // it is at the other one by now
        assert!(!owns.go(7, 2));
        owns.await_client(7, 3, start + second);
        assert_eq!(owns.take_late(start + second), [7]);
        owns.await_gone(8, start + second);
        owns.await_gone(8, start + second * 2);
        assert_eq!((owns.take_late(start + second), owns.take_late(start + second * 2)), (vec![8], vec![]));
        owns.come(9, Who::User(0), 4);
        owns.await_gone(9, start);
        assert!(!owns.end_away(9));
        assert_eq!((owns.moved(9), owns.moved(9)), (Some(4), None));
        owns.await_gone(9, start);
        assert!(owns.end_away(9) && !owns.end_away(9));
    }

    #[test]
    fn sessions_have_numbers() {
        let mut owns = Owns::default();
        owns.come(70, Who::User(0), 1);
        owns.name(70, 5);
        owns.name(70, 6); // it has left, and said more
        assert_eq!((owns.client_of(5), owns.client_of(6), owns.session(70)), (Some(1), Some(1), Some(6)));
        owns.note_end(70, Why::Left);
        owns.note_end(71, Why::Left); // of whom nothing is known
        owns.note_end_with_server(9);
        assert_eq!([5, 6, 9].map(|session| owns.end_of(session)), [None, Some(Why::Left), Some(Why::Server)]);
        assert!(owns.has(6) && !owns.has(9));
        owns.forget(5);
        assert_eq!((owns.client_of(5), owns.session(70)), (None, Some(6)));
        owns.forget(6);
        assert_eq!((owns.end_of(6), owns.has(6)), (None, false));
        assert_eq!((owns.client_of(6), owns.session(70)), (None, None));
        owns.arrive(70, 7);
        assert!(!owns.has(7) && owns.client_of(7) == Some(1)); // another server is answered still
        owns.note_arrivals(&[Effect::Gone(71), Effect::Here(70, 7)]);
        owns.arrive(70, 7); // its client comes to another connection here
        assert!(owns.has(7));
        let mut random = File::open("/dev/urandom").unwrap();
        assert_ne!(draw(&mut random).unwrap(), draw(&mut random).unwrap());
    }
}
