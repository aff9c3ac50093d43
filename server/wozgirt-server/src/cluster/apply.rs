//! What an entry of the log means: a function of nothing but the log, so that the engines of all servers get the same lines.

use super::common::extends;
use super::entries::{Entry, Key, Line, Server, Session};
use super::owner::{Owner, Who};
use std::collections::BTreeMap;
use std::fmt;
use std::rc::Rc;
use wozgirt_engine::{Input, Lock};

/// What the engine is given, in this order.
#[derive(Debug, Clone, PartialEq, Eq)]
pub enum Given {
    /// An input. If it is not new, the engine repeats its first answer, or says that it is past.
    Do {
        /// The server that said it.
        key: Key,
        /// Whose it is.
        session: Session,
        /// Its number.
        number: u64,
        /// What is asked.
        input: Input,
        /// Whether its number is above the last.
        is_new: bool,
    },
    /// Nothing: here the session has come to the writer of the entry.
    Here(Key, Session),
    /// Nothing: here it has not come to the writer, since it belongs to another user.
    Closed(Key),
    /// Nothing: what its client had is given up here.
    Gone(Key),
    /// The session leaves.
    Leave(Session),
    /// Nothing is kept of the session any more, whose last number is this.
    Forget(Session, u64),
    /// How the lock is, since repairs may have passed.
    Stats(Lock),
}

impl fmt::Display for Given {
    fn fmt(&self, f: &mut fmt::Formatter<'_>) -> fmt::Result {
        match self {
            Given::Do { session, number, input, .. } => write!(f, "{session} {number} {session} {input}"),
            Given::Here(..) | Given::Closed(_) | Given::Gone(_) => Ok(()),
            Given::Leave(session) => write!(f, "{session} leave"),
            Given::Forget(session, number) => write!(f, "{session} {number} forget"),
            Given::Stats(lock) => write!(f, "0 stats {lock}"),
        }
    }
}

/// A session, as the log knows it.
#[derive(Debug, Clone, PartialEq, Eq)]
pub struct Known {
    /// Its number.
    pub session: Session,
    /// The server whose client it is.
    pub home: Server,
    /// The number of its last input, if there was one.
    pub last: Option<u64>,
    /// Whose it is.
    pub owner: Owner,
}

/// What the log says of sessions and servers.
#[derive(Debug, Clone, PartialEq, Eq)]
pub struct Applied {
    /// The last entry.
    pub position: u64,
    /// Its revision.
    pub revision: u64,
    /// The settings, from the first entry on.
    pub settings: Option<String>,
    /// The last serial of each server that is not over.
    pub servers: BTreeMap<Server, u64>,
    /// The last incarnation of each name that is over, with all before.
    pub over: BTreeMap<Rc<str>, u64>,
    /// The sessions.
    pub sessions: BTreeMap<Key, Known>,
    /// The number of the last session that has begun.
    pub last_session: Session,
    /// The lines since the last checkpoint.
    pub lines: u64,
    /// With this many there is one.
    pub most_lines: u64,
}

/// What an entry brings.
#[derive(Debug, Default, PartialEq, Eq)]
pub struct Step {
    /// Whether it counts.
    pub is_taken: bool,
    /// What the engine is given.
    pub given: Vec<Given>,
    /// The servers that are over by this entry.
    pub over: Vec<Server>,
    /// Sessions that have come from one server to another.
    pub moved: Vec<(Key, Server)>,
    /// Whether there is a checkpoint after it.
    pub is_checkpoint: bool,
    /// Whether there are more locks after it.
    pub has_more_locks: bool,
}

impl Applied {
    /// Before the first entry.
    pub fn new(most_lines: u64) -> Applied {
        Applied {
            position: 0,
            revision: 0,
            settings: None,
            servers: BTreeMap::new(),
            over: BTreeMap::new(),
            sessions: BTreeMap::new(),
            last_session: 0,
            lines: 0,
            most_lines,
        }
    }

    /// The next entry; nothing for a text that is not an entry.
    pub fn apply(&mut self, position: u64, revision: u64, entry: Option<&Entry>) -> Step {
        let mut step = Step::default();
        (self.position, self.revision) = (position, revision);
        if let Some(entry) = entry.filter(|entry| self.is_taken(entry, &mut step)) {
            step.is_taken = true;
            for line in &entry.lines {
                self.line(&entry.writer, line, &mut step);
            }
            self.lines += entry.lines.len() as u64;
            // the engines of all have more locks from the same entry on
            if self.lines >= self.most_lines || step.has_more_locks {
                self.lines = 0;
                step.is_checkpoint = true;
            }
        }
        step
    }

    /// Whether the server is over.
    pub fn is_over(&self, server: &Server) -> bool {
        self.over.get(&server.name).is_some_and(|&last| server.incarnation <= last)
    }

    /// The sessions of a server's clients.
    pub fn sessions_of<'a>(&'a self, server: &'a Server) -> impl Iterator<Item = Session> + 'a {
        let is_its = |home: &Server| home.name == server.name && home.incarnation <= server.incarnation;
        self.sessions.values().filter(move |known| is_its(&known.home)).map(|known| known.session)
    }

    fn is_taken(&mut self, entry: &Entry, step: &mut Step) -> bool {
        if self.is_over(&entry.writer) {
            return false;
        }
        if let Some(last) = self.servers.get_mut(&entry.writer) {
            let is_later = entry.serial > *last;
            *last = entry.serial.max(*last);
            return is_later;
        }
        // a server begins with the settings of all, except for the end of the list of locks
        let Some(Line::With(settings)) = entry.lines.first() else { return false };
        let of_all = self.settings.get_or_insert_with(|| settings.clone());
        step.has_more_locks = extends(settings, of_all);
        if step.has_more_locks {
            of_all.clone_from(settings);
        }
        let is_as_all = settings == of_all || extends(of_all, settings);
        if is_as_all {
            self.servers.insert(entry.writer.clone(), entry.serial);
        }
        is_as_all
    }

    fn line(&mut self, writer: &Server, line: &Line, step: &mut Step) {
        match line {
            Line::With(_) => {}
            Line::Here(key, who) => {
                let session = self.come(*key, who, writer, step);
                step.given.push(session.map_or(Given::Closed(*key), |session| Given::Here(*key, session)));
            }
            Line::Do(key, number, input) => {
                // else its client has come to another server, and says there what was not done here; or it has left, and
                // what comes late, from where it was before, may have been done
                let Some(known) = self.sessions.get_mut(key).filter(|known| known.home == *writer) else { return };
                let is_new = known.last.map_or(true, |last| *number > last);
                if is_new {
                    known.last = Some(*number);
                }
                let (key, session, number, input) = (*key, known.session, *number, input.clone());
                let look =
                    if let Input::Corrupt { lock, .. } = &input { Some(Given::Stats(lock.clone())) } else { None };
                step.given.push(Given::Do { key, session, number, input, is_new });
                step.given.extend(look);
            }
            Line::Gone(key) => {
                // a client without a session has nothing to give up
                if self.sessions.get(key).map_or(true, |known| known.home == *writer) {
                    self.go(*key, step);
                    step.given.push(Given::Gone(*key));
                }
            }
            Line::Server(server) => self.end(server, step),
        }
    }

    /// The session is the writer's from here on, unless it belongs to another user.
    fn come(&mut self, key: Key, who: &Who, writer: &Server, step: &mut Step) -> Option<Session> {
        let last = &mut self.last_session;
        let known = self.sessions.entry(key).or_insert_with(|| {
            *last += 1;
            Known { session: *last, home: writer.clone(), last: None, owner: Owner::default() }
        });
        if !known.owner.admits(who) {
            return None;
        }
        if known.home != *writer {
            step.moved.push((key, std::mem::replace(&mut known.home, writer.clone())));
        }
        Some(known.session)
    }

    fn go(&mut self, key: Key, step: &mut Step) {
        let Some(Known { session, last, .. }) = self.sessions.remove(&key) else { return };
        step.given.push(Given::Leave(session));
        if let Some(last) = last {
            step.given.push(Given::Forget(session, last));
        }
    }

    fn end(&mut self, server: &Server, step: &mut Step) {
        if self.is_over(server) {
            return;
        }
        self.over.insert(server.name.clone(), server.incarnation);
        let is_over = |it: &Server| it.name == server.name && it.incarnation <= server.incarnation;
        step.over.extend(self.servers.keys().filter(|it| is_over(it)).cloned());
        self.servers.retain(|it, _| !is_over(it));
        let gone = self.sessions.iter().filter(|(_, known)| is_over(&known.home));
        let mut gone: Vec<(Session, Key)> = gone.map(|(key, known)| (known.session, *key)).collect();
        gone.sort_unstable();
        for (_, key) in gone {
            self.go(key, step);
        }
    }
}

#[cfg(test)]
mod tests {
    use super::*;

    fn owner_of(user: &str, address: &str) -> Owner {
        Owner::parse(user, address).unwrap()
    }

    fn entry(writer: &str, incarnation: u64, serial: u64, lines: &[&str]) -> Entry {
        let lines: String = lines.iter().map(|line| format!("\t{line}")).collect();
        format!("by {writer} {incarnation} {serial} 0 {}{lines}", "0".repeat(64)).parse().unwrap()
    }

    /// What the engine is given for some entries, one after the other.
    fn given(applied: &mut Applied, entries: &[Entry]) -> Vec<String> {
        let mut lines = Vec::new();
        for entry in entries {
            let step = applied.apply(applied.position + 1, applied.revision + 3, Some(entry));
            lines.extend(step.given.iter().map(Given::to_string).filter(|line| !line.is_empty()));
        }
        lines
    }

    #[test]
    fn sessions_come_and_go() {
        let mut applied = Applied::new(100);
        let lines = given(
            &mut applied,
            &[
                entry("a", 1, 1, &["with s", "here 70 u0", "70 1 acquire a 5", "here 90 u0", "90 1 acquire a 6"]),
                entry("b", 2, 1, &["with s", "here 90 u0", "here 80 u0", "80 4 try b 0"]),
                entry("a", 1, 2, &["90 2 cancel a", "gone 90", "gone 70", "70 1 acquire a 7"]),
                entry("a", 1, 3, &["here 70 u0", "70 1 acquire a 5"]),
            ],
        );
        let all =
            ["1 1 1 acquire a 5", "2 1 2 acquire a 6", "3 4 3 try b 0", "1 leave", "1 1 forget", "4 1 4 acquire a 5"];
        assert_eq!(lines, all);
        assert_eq!(
            applied.sessions[&90],
            Known { session: 2, home: entry("b", 2, 1, &[]).writer, last: Some(1), owner: owner_of("u0", "-") }
        );
    }

    #[test]
    fn a_session_is_not_somebody_elses() {
        let mut applied = Applied::new(100);
        let lines = given(
            &mut applied,
            &[
                entry("a", 1, 1, &["with s", "here 70 u7", "70 1 acquire a 5"]),
                entry("b", 2, 1, &["with s", "here 70 u8", "70 2 release a 1"]),
                entry("b", 2, 2, &["here 70 a10.0.0.1", "70 2 release a 1"]),
                entry("a", 1, 2, &["here 70 a10.0.0.2", "here 70 -", "70 3 acquire a 6"]),
            ],
        );
        assert_eq!(lines, ["1 1 1 acquire a 5", "1 2 1 release a 1"]);
        assert_eq!(applied.sessions[&70].owner, owner_of("u7", "a10.0.0.1"));
        let step = applied.apply(9, 9, Some(&entry("a", 1, 3, &["here 70 u8", "here 70 u7"])));
        assert_eq!(step.given, [Given::Closed(70), Given::Here(70, 1)]);
    }

    #[test]
    fn an_append_that_was_tried_twice_counts_once() {
        let mut applied = Applied::new(100);
        let first = entry("a", 1, 1, &["with s", "here 70 u0", "70 1 acquire a 5"]);
        let second = entry("a", 1, 2, &["70 2 release a 1"]);
        assert_eq!(given(&mut applied, &[first.clone(), second.clone(), first, second]).len(), 2);
        assert_eq!((applied.position, applied.revision), (4, 12));
    }

    #[test]
    fn a_server_that_is_over_is_heard_no_more() {
        let mut applied = Applied::new(100);
        let a = entry(
            "a",
            4,
            1,
            &["with s", "here 70 u0", "70 1 acquire a 5", "here 30 u0", "here 90 u0", "90 1 acquire b 5"],
        );
        let b = entry("b", 5, 1, &["with s", "here 90 u0", "90 2 cancel b", "server a 4", "server a 3"]);
        let late = entry("a", 4, 2, &["70 2 release a 1"]);
        let again = entry("a", 6, 1, &["with s", "here 70 u0", "70 1 acquire a 5"]);
        let lines = given(&mut applied, &[a, b, late, again]);
        assert_eq!(lines[3..], ["1 leave", "1 1 forget", "2 leave", "4 1 4 acquire a 5"]);
        assert_eq!(applied.servers.keys().map(Server::to_string).collect::<Vec<_>>(), ["a 6", "b 5"]);
    }

    #[test]
    fn who_begins_with_other_settings_is_not_heard() {
        let mut applied = Applied::new(100);
        let a = entry("a", 1, 1, &["with s"]);
        let b = [entry("b", 2, 1, &["with t", "70 1 acquire a 5"]), entry("b", 2, 2, &["70 1 acquire a 5"])];
        assert!(given(&mut applied, &[a, b[0].clone(), b[1].clone()]).is_empty());
        assert_eq!(applied.settings.as_deref(), Some("s"));
        assert!(!applied.apply(9, 9, None).is_taken);
        assert_eq!(applied.position, 9);
    }

    #[test]
    fn more_locks() {
        let mut applied = Applied::new(100);
        let mut begin = |name: &str, settings: &str| {
            let step = applied.apply(applied.position + 1, 1, Some(&entry(name, 1, 1, &[&format!("with {settings}")])));
            (step.is_taken, step.has_more_locks && step.is_checkpoint, applied.settings.clone().unwrap())
        };
        assert_eq!(begin("a", "9 - 0 x:8:8"), (true, false, "9 - 0 x:8:8".into()));
        assert_eq!(begin("b", "9 - 0 x:8:8,y:8:8"), (true, true, "9 - 0 x:8:8,y:8:8".into()));
        assert_eq!(begin("c", "9 - 0 x:8:8"), (true, false, "9 - 0 x:8:8,y:8:8".into()));
        assert_eq!(begin("d", "9 - 0 x:8:8,z:8:8"), (false, false, "9 - 0 x:8:8,y:8:8".into()));
        let all = "9 - 0 x:8:8,y:8:8,*:2:2 100";
        assert_eq!(begin("e", all), (true, true, all.into()));
        assert_eq!(begin("f", "9 - 0 x:8:8"), (true, false, all.into()));
        assert_eq!(begin("g", "9 - 0 x:8:8,y:8:8,*:2:2 99"), (false, false, all.into()));
        assert_eq!(begin("h", "9 - 0 x:8:8,y:8:8,z:8:8,*:2:2 100"), (false, false, all.into()));
    }

    #[test]
    fn what_is_not_new_and_what_needs_a_look() {
        let mut applied = Applied::new(5);
        let lines = ["with s", "here 70 u0", "70 5 acquire a 5", "70 4 cancel a"];
        let step = applied.apply(1, 1, Some(&entry("a", 1, 1, &lines)));
        assert!(!step.is_checkpoint);
        assert!(matches!(
            step.given[1..],
            [Given::Do { is_new: true, .. }, Given::Do { is_new: false, number: 4, .. }]
        ));
        let step = applied.apply(2, 2, Some(&entry("a", 1, 2, &["70 6 corrupt d 1 1"])));
        assert!(step.is_checkpoint && applied.lines == 0);
        assert_eq!(step.given[1], Given::Stats("d".parse().unwrap()));
        let step = applied.apply(3, 3, Some(&entry("a", 1, 3, &["gone 9", "here 9 u0"])));
        assert_eq!(step.given, [Given::Gone(9), Given::Here(9, 2)]);
    }
}
