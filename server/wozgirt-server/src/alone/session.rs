//! A session of a single server: what it has, and what it asked.

use super::holds::Holds;
use super::Line;
use crate::cluster::{Key, Owner};
use crate::shares::Guest;
use std::collections::VecDeque;
use std::time::{Duration, Instant};
use wozgirt_engine::{Answer, Answered, Client, Input, Label, Lock, StateLine, Token};

/// Where the client of a session is.
#[derive(Debug, Clone, Copy, PartialEq, Eq)]
pub enum At {
    /// At this connection.
    Here(Client),
    /// It may come back until then, once that is known: not before the engine is there.
    Away(Option<Instant>),
}

/// What the engine was asked for a session.
#[derive(Debug, Clone, PartialEq, Eq)]
pub enum What {
    /// An input of the client, with its number, and whether that is new.
    Input(u64, Input, bool),
    /// A place in a queue that it had before the engine started.
    Place(Lock, Label),
    /// The end of its hold, by this operator.
    End(Client, Lock, Token),
    /// It waits for the lock no longer, since the rules forbid that.
    Withdraw(Lock),
    /// It leaves, with this number.
    Leave(u64),
}

/// A question, and the connection that asked it.
#[derive(Debug, Clone, PartialEq, Eq)]
pub struct Ask {
    /// The connection.
    pub client: Client,
    /// The question.
    pub what: What,
}

/// A hold that an operator ends.
#[derive(Debug, Clone, PartialEq, Eq)]
pub struct Ended {
    /// The operator's connection.
    pub operator: Client,
    /// The session that had it.
    pub session: Client,
    /// The lock.
    pub lock: Lock,
    /// The token.
    pub token: Token,
}

/// The lock for which a session waits.
#[derive(Debug, Clone, PartialEq, Eq)]
pub struct Place {
    /// The lock.
    pub lock: Lock,
    /// What the journal keeps of the hold.
    pub label: Label,
    /// A client with a smaller one came before.
    pub order: u64,
}

/// An input whose answer was to wait, with a label that is not known.
#[derive(Debug, Clone, PartialEq, Eq)]
pub struct Unlabelled {
    /// The lock.
    pub lock: Lock,
    /// The input's number, and its answer.
    pub done: (u64, String),
}

/// A session.
#[derive(Debug)]
pub struct Session {
    /// The word by which its client is known.
    pub key: Key,
    /// Whose it is.
    pub owner: Owner,
    /// On whose account it is.
    pub guest: Guest,
    /// How long its client may be away.
    pub lease: Duration,
    /// Where that is.
    pub at: At,
    /// The last number that was asked.
    pub last_asked: Option<u64>,
    /// The number of the last input that was done, and the first line of its answer.
    pub last: Option<(u64, String)>,
    /// The locks that it holds.
    pub holds: Holds,
    /// The lock for which it waits.
    pub waits: Option<Place>,
    /// What the engine has not answered, the oldest first.
    pub asked: VecDeque<Ask>,
    /// It leaves, and its key is another session's.
    pub is_left: bool,
    /// Its answer was to wait, and its label is not known yet.
    pub unlabelled: Option<Unlabelled>,
}

impl Session {
    /// A session that has nothing.
    pub fn new(key: Key, owner: Owner, lease: Duration, at: At) -> Session {
        Session {
            key,
            guest: owner.guest(),
            owner,
            lease,
            at,
            last_asked: None,
            last: None,
            holds: Holds::default(),
            waits: None,
            asked: VecDeque::new(),
            is_left: false,
            unlabelled: None,
        }
    }

    /// Whether nothing has to be kept of it.
    pub fn is_blank(&self) -> bool {
        self.last_asked.is_none() && self.holds.is_empty() && self.waits.is_none()
    }

    /// How much longer its client may be away.
    pub fn left(&self, now: Instant) -> Duration {
        match self.at {
            At::Away(Some(until)) => until.saturating_duration_since(now),
            At::Away(None) | At::Here(_) => self.lease,
        }
    }

    /// Whether it has nothing but the answer to what it asked last.
    pub fn is_idle(&self) -> bool {
        self.holds.is_empty() && self.waits.is_none() && self.unlabelled.is_none() && self.asked.is_empty()
    }

    /// Whether it holds the lock.
    pub fn has(&self, lock: &str) -> bool {
        self.holds.has(lock)
    }

    /// How many locks it holds, with the one that it waits for.
    pub fn count_locks(&self) -> usize {
        self.holds.len() + usize::from(self.waits.is_some())
    }

    /// The locks that it holds.
    pub fn held(&self) -> Vec<Lock> {
        self.holds.iter().map(|(lock, _)| lock.clone()).collect()
    }

    /// It holds the lock, and waits for it no longer.
    pub fn hold(&mut self, lock: Lock, token: Token) {
        self.free(&lock);
        self.holds.put(lock, token);
    }

    /// The lock for which it waits, if it is this one.
    fn place(&self, lock: &str) -> Option<&Place> {
        self.waits.as_ref().filter(|place| place.lock == lock)
    }

    /// It waits for the lock no longer.
    fn cancel(&mut self, lock: &str) {
        if self.place(lock).is_some() {
            self.waits = None;
        }
    }

    /// It has nothing of the lock any more.
    pub fn free(&mut self, lock: &str) {
        self.note_label_of(lock);
        self.holds.remove(lock);
        self.cancel(lock);
    }

    /// It waits for the lock.
    pub fn wait(&mut self, place: Place) {
        self.note_label_of(&place.lock);
        self.waits = Some(place);
    }

    /// More is said of the lock: an input for it whose label was not known is done. What is said of another lock says nothing of that.
    fn note_label_of(&mut self, lock: &str) {
        if self.unlabelled.as_ref().is_some_and(|it| *it.lock == *lock) {
            self.last = self.unlabelled.take().map(|it| it.done);
        }
    }

    /// An input was done, as the server heard.
    pub fn did(&mut self, number: u64, answer: Option<Answer<'_>>, text: &str) {
        if let (true, Some(Answer::Released { lock })) = (self.is_new(number), answer) {
            self.holds.remove(lock);
        }
        self.was_done(number, answer, text);
    }

    fn is_new(&self, number: u64) -> bool {
        self.last.as_ref().map_or(true, |(last, _)| number > *last)
    }

    /// An input was done, as the journal says: whether that is new. It had the hold that it was granted; whether that is over is seen when
    /// the open ones are known. One whose answer was to wait, with a label that is not known, counts as not done unless it is: no client
    /// waits any more when the engine has ended, and the client asks again.
    pub fn was_done(&mut self, number: u64, answer: Option<Answer<'_>>, text: &str) -> bool {
        if !self.is_new(number) {
            let Some(Answer::Granted { lock, token }) = answer else { return false };
            return lock.parse().is_ok_and(|lock| self.holds.put(lock, token));
        }
        self.unlabelled = None;
        match answer {
            Some(Answer::Granted { lock, token }) => lock.parse().into_iter().for_each(|lock: Lock| {
                self.cancel(&lock);
                self.holds.put(lock, token);
            }),
            Some(Answer::Cancelled { lock }) => self.cancel(lock),
            Some(Answer::Waiting { lock, .. }) if self.place(lock).is_none() => {
                let done = (number, text.into());
                self.unlabelled = lock.parse().ok().map(|lock| Unlabelled { lock, done });
                return true;
            }
            _ => {}
        }
        self.last = Some((number, text.into()));
        true
    }

    /// The label with which an input that has no answer asks for the lock.
    pub fn label(&self, number: u64) -> Option<Label> {
        self.asked.iter().find_map(|ask| match &ask.what {
            What::Input(its, Input::Acquire { label, .. }, true) if *its == number => Some(*label),
            _ => None,
        })
    }

    /// The engine is gone: no question is open any more.
    pub fn forget_asked(&mut self) {
        self.asked.clear();
        self.unlabelled = None;
        self.last_asked = self.last.as_ref().map(|(number, _)| *number);
    }

    /// The line of the last input that was done.
    pub fn done_line(&self, session: Client) -> Option<StateLine> {
        let (number, answer) = self.last.as_ref()?;
        Some(StateLine::Did { key: session, number: *number, answer: answer.clone() })
    }

    /// The lines of its holds.
    pub fn hold_lines(&self, session: Client) -> impl Iterator<Item = StateLine> + '_ {
        let line =
            move |(lock, token): &(Lock, Token)| StateLine::Hold { lock: lock.clone(), token: *token, client: session };
        self.holds.iter().map(line)
    }

    /// The lines that bring back what it has, except its place. If its last answer was to wait for a lock of which it has nothing, they say so: else
    /// that input would count as not done.
    pub fn all(&self, session: Client) -> impl Iterator<Item = Line> + '_ {
        let answer = self.last.as_ref().and_then(|(_, text)| Answered::parse(text).ok());
        let lock = answer.and_then(|it| if let Answer::Waiting { lock, .. } = it.answer { Some(lock) } else { None });
        let nothing = lock.filter(|lock| !self.has(lock) && self.place(lock).is_none());
        let free = nothing.and_then(|lock| Some(Line::Free(session, lock.parse().ok()?)));
        let done = self.done_line(session).map(Line::Has);
        done.into_iter().chain(free).chain(self.hold_lines(session).map(Line::Has))
    }
}

#[cfg(test)]
mod tests {
    use super::*;

    fn session() -> Session {
        Session::new(7, Owner::default(), Duration::from_secs(1), At::Away(None))
    }

    fn lock(name: &str) -> Lock {
        name.parse().unwrap()
    }

    fn did(it: &mut Session, number: u64, text: &str) {
        it.did(number, Some(Answered::parse(text).unwrap().answer), text);
    }

    #[test]
    fn what_was_done() {
        let mut it = session();
        did(&mut it, 1, "5 granted a 3");
        did(&mut it, 2, "5 granted b 1");
        did(&mut it, 3, "5 released a");
        did(&mut it, 2, "5 released b"); // it was known
        assert_eq!(
            (it.holds.iter().collect::<Vec<_>>(), &it.last),
            (vec![&(lock("b"), 1)], &Some((3, "5 released a".into())))
        );
        it.hold(lock("a"), 9);
        assert!(it.has("a") && it.has("b") && !it.has("c"));
        let lines: Vec<String> = it.all(5).map(|line| line.to_string()).collect();
        assert_eq!(lines, ["5 3 did 5 released a", "hold b 1 5", "hold a 9 5"]);
    }

    #[test]
    fn who_waits_without_a_label_asks_again() {
        let mut it = session();
        did(&mut it, 4, "5 waiting a 2");
        it.hold(lock("b"), 7); // that says nothing of the lock for which it waits
        assert_eq!((&it.waits, &it.last), (&None, &None));
        let place = Place { lock: lock("a"), label: 8, order: 1 };
        it.wait(place.clone());
        assert_eq!((&it.waits, &it.last), (&Some(place), &Some((4, "5 waiting a 2".into()))));
        did(&mut it, 5, "5 busy b");
        did(&mut it, 6, "5 waiting a 2");
        it.hold(lock("a"), 4);
        assert_eq!((&it.waits, it.last.as_ref().map(|(number, _)| *number)), (&None, Some(6)));
        did(&mut it, 7, "5 waiting a 0");
        it.hold(lock("a"), 5);
        assert_eq!(it.last.as_ref().map(|(number, _)| *number), Some(7));
        it.wait(Place { lock: lock("b"), label: 8, order: 1 });
        did(&mut it, 8, "5 cancelled b");
        assert_eq!(it.waits, None);
    }

    #[test]
    fn a_label_is_that_of_what_was_asked() {
        let mut it = session();
        assert!(it.is_blank());
        for (number, input) in [(1, "acquire a 5"), (2, "cancel a"), (3, "acquire b 6")] {
            it.asked.push_back(Ask { client: 1, what: What::Input(number, input.parse().unwrap(), true) });
        }
        it.last_asked = Some(3);
        assert_eq!([1, 2, 3, 4].map(|number| it.label(number)), [Some(5), None, Some(6), None]);
        did(&mut it, 1, "5 refused holds a");
        it.forget_asked();
        assert_eq!((it.last_asked, it.asked.len(), it.is_blank()), (Some(1), 0, false));
    }
}
