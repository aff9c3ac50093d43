//! Which answer of the engine is whose: what it was given, and what it answers, in the same order.
//!
//! The engine answers an input by one line, followed by the grants that the input brings to others. The board says who is next in
//! a queue, and so which grants these are. An engine that answers something else is not the one that was asked.

use super::apply::Given;
use super::entries::{is_digest, Key, Session};
use crate::board::{Board, Party, Why};
use crate::shares::{Counts, Guest};
use std::collections::{BTreeMap, HashMap, VecDeque};
use std::time::Instant;
use wozgirt_engine::{decimal, Answer, Answered, Input, Lock, Token, NOBODY};

/// What a session holds and waits for.
#[derive(Debug, Clone, Default, PartialEq, Eq)]
pub struct Standing {
    /// The locks that it holds, with its tokens.
    pub holds: Vec<(Lock, Token)>,
    /// The lock that it waits for.
    pub waits: Option<Lock>,
}

impl Standing {
    /// The locks that it holds.
    pub fn held(&self) -> Vec<Lock> {
        self.holds.iter().map(|(lock, _)| lock.clone()).collect()
    }
}

/// What a line of the engine says.
#[derive(Debug, PartialEq, Eq)]
pub enum Effect<'a> {
    /// The first line for an input.
    Answered {
        /// Whose it is.
        session: Session,
        /// Its number.
        number: u64,
        /// What was asked.
        input: Input,
        /// What is answered.
        answer: Answer<'a>,
    },
    /// A client that waited is granted the lock.
    Granted {
        /// Whose it is.
        session: Session,
        /// The lock.
        lock: &'a str,
        /// The token.
        token: Token,
    },
    /// The client's session has come here.
    Here(Key, Session),
    /// The session belongs to another user, and has not come here.
    Closed(Key),
    /// What the client had is given up.
    Gone(Key),
    /// The session has left, with this.
    Left(Session, Standing),
    /// All of an entry is done.
    Done {
        /// The entry's position.
        position: u64,
        /// The digest there.
        digest: String,
    },
}

/// The engine answered what it was not asked.
#[derive(Debug, PartialEq, Eq)]
pub struct NotAsked;

#[derive(Debug)]
enum Item {
    Given(Given),
    At(u64),
}

/// What the engine was given and has not answered, and what the sessions have.
#[derive(Debug, Default)]
pub struct Mirror {
    items: VecDeque<Item>,
    /// The grants that come before anything else.
    next: BTreeMap<Lock, Session>,
    standing: HashMap<Session, Standing>,
    /// On whose account each session is, and how many each has.
    guests: HashMap<Session, Guest>,
    counts: Counts,
}

impl Mirror {
    /// The engine was given this.
    pub fn give(&mut self, given: Given) {
        self.items.push_back(Item::Given(given));
    }

    /// The engine was asked for the digest at this position.
    pub fn give_at(&mut self, position: u64) {
        self.items.push_back(Item::At(position));
    }

    /// The session is in the log, on this one's account.
    pub fn begins(&mut self, session: Session, guest: Guest) {
        if self.guests.insert(session, guest.clone()).is_none() {
            self.counts.add(guest);
        }
    }

    /// How many sessions there are, and on whose account.
    pub fn parties(&self) -> &Counts {
        &self.counts
    }

    /// The session, and on whose account it is.
    pub fn party(&self, session: Session) -> Party {
        Party { client: session, guest: self.guests.get(&session).cloned().unwrap_or(Guest::UNKNOWN) }
    }

    /// What a session has.
    pub fn standing(&self, session: Session) -> Standing {
        self.standing.get(&session).cloned().unwrap_or_default()
    }

    /// Whether the session holds the lock.
    pub fn holds(&self, session: Session, lock: &str) -> bool {
        self.standing.get(&session).is_some_and(|it| it.holds.iter().any(|(held, _)| *held == lock))
    }

    /// How many locks the session holds, with the one that it waits for.
    pub fn count_locks(&self, session: Session) -> usize {
        self.standing.get(&session).map_or(0, |it| it.holds.len() + usize::from(it.waits.is_some()))
    }

    /// The session holds the lock from before.
    pub fn put_hold(&mut self, session: Session, lock: Lock, token: Token) {
        self.standing.entry(session).or_default().holds.push((lock, token));
    }

    /// The session waits for the lock from before.
    pub fn put_wait(&mut self, session: Session, lock: Lock) {
        self.standing.entry(session).or_default().waits = Some(lock);
    }

    /// No client needs to know of sessions that come and go.
    pub fn forget_clients(&mut self) {
        self.items.retain(|item| !matches!(item, Item::Given(Given::Here(..) | Given::Closed(_) | Given::Gone(_))));
    }

    /// Nothing was given, and nobody has anything.
    pub fn forget(&mut self) {
        *self = Mirror::default();
    }

    /// Whether all that was given is answered.
    pub fn is_idle(&self) -> bool {
        self.items.is_empty()
    }

    /// One line of the engine.
    pub fn hear<'a>(&mut self, line: &'a str, board: &mut Board, now: Instant) -> Result<Vec<Effect<'a>>, NotAsked> {
        let mut effects = Vec::new();
        self.pass_silent(board, &mut effects);
        if let Some(rest) = line.strip_prefix("at ") {
            effects.push(self.hear_digest(rest)?);
            return Ok(effects);
        }
        let Answered { client, answer } = Answered::parse(line).map_err(|_| NotAsked)?;
        let effect = if self.next.is_empty() {
            self.hear_answer(client, answer, board, now)?
        } else {
            Some(self.hear_grant(client, answer, board, now)?)
        };
        effects.extend(effect);
        Ok(effects)
    }

    fn hear_digest(&mut self, rest: &str) -> Result<Effect<'static>, NotAsked> {
        let (position, digest) = rest.split_once(' ').ok_or(NotAsked)?;
        let is_asked = matches!(self.items.pop_front(), Some(Item::At(at)) if decimal(position) == Ok(at));
        if !is_asked || !self.next.is_empty() || !is_digest(digest) {
            return Err(NotAsked);
        }
        Ok(Effect::Done { position: decimal(position).map_err(|_| NotAsked)?, digest: digest.into() })
    }

    /// What is next and not answered.
    fn pass_silent(&mut self, board: &mut Board, effects: &mut Vec<Effect<'_>>) {
        while self.next.is_empty() {
            match self.items.front() {
                Some(Item::Given(Given::Here(key, session))) => effects.push(Effect::Here(*key, *session)),
                Some(Item::Given(Given::Closed(key))) => effects.push(Effect::Closed(*key)),
                Some(Item::Given(Given::Gone(key))) => effects.push(Effect::Gone(*key)),
                Some(Item::Given(Given::Leave(session))) => {
                    let session = *session;
                    let standing = self.leave(session, board);
                    effects.push(Effect::Left(session, standing));
                }
                Some(Item::Given(Given::Forget(..))) => {}
                _ => return,
            }
            self.items.pop_front();
        }
    }

    fn leave(&mut self, session: Session, board: &mut Board) -> Standing {
        if let Some(guest) = self.guests.remove(&session) {
            self.counts.remove(&guest);
        }
        let standing = self.standing.remove(&session).unwrap_or_default();
        if let Some(lock) = &standing.waits {
            board.waits_no_longer(lock, session);
        }
        for (lock, _) in &standing.holds {
            board.left(lock, session, Why::Left); // its server knows better
            self.expect_next(lock, board);
        }
        standing
    }

    /// The hold of this lock has ended: the first of the line is next.
    fn expect_next(&mut self, lock: &Lock, board: &Board) {
        let first = board.lock(lock).and_then(|sight| sight.line.front());
        self.next.extend(first.map(|waiter| (lock.clone(), waiter.client)));
    }

    fn hear_grant<'a>(
        &mut self,
        client: Session,
        answer: Answer<'a>,
        board: &mut Board,
        now: Instant,
    ) -> Result<Effect<'a>, NotAsked> {
        let Answer::Granted { lock, token } = answer else { return Err(NotAsked) };
        let Some((next, _)) = self.next.remove_entry(lock).filter(|(_, first)| *first == client) else {
            return Err(NotAsked);
        };
        let standing = self.standing.entry(client).or_default();
        standing.waits = None;
        standing.holds.push((next, token));
        board.granted(lock, self.party(client), token, None, now);
        Ok(Effect::Granted { session: client, lock, token })
    }

    fn hear_answer<'a>(
        &mut self,
        client: Session,
        answer: Answer<'a>,
        board: &mut Board,
        now: Instant,
    ) -> Result<Option<Effect<'a>>, NotAsked> {
        match self.items.pop_front() {
            Some(Item::Given(Given::Do { session, number, input, is_new, .. })) if session == client => {
                if is_new {
                    self.note(session, &input, &answer, board, now)?;
                }
                Ok(Some(Effect::Answered { session, number, input, answer }))
            }
            Some(Item::Given(Given::Stats(lock))) if client == NOBODY => match answer {
                Answer::Stats(stats) if lock == stats.lock => {
                    board.note_stats(&stats);
                    Ok(None)
                }
                Answer::Refused { .. } => Ok(None), // there is no such lock
                _ => Err(NotAsked),
            },
            _ => Err(NotAsked),
        }
    }

    /// What a new input changes.
    fn note(
        &mut self,
        session: Session,
        input: &Input,
        answer: &Answer<'_>,
        board: &mut Board,
        now: Instant,
    ) -> Result<(), NotAsked> {
        let party = self.party(session);
        let standing = self.standing.entry(session).or_default();
        match (input, answer) {
            (Input::Acquire { lock, label } | Input::Try { lock, label }, Answer::Granted { lock: l, token })
                if lock == l =>
            {
                standing.holds.push((lock.clone(), *token));
                board.granted(lock, party, *token, Some(*label), now);
            }
            (Input::Acquire { lock, label }, Answer::Waiting { lock: l, .. }) if lock == l => {
                standing.waits = Some(lock.clone());
                board.waits(lock, party, *label, now);
            }
            (Input::Release { lock, .. }, Answer::Released { lock: l }) if lock == l => {
                standing.holds.retain(|(held, _)| held != lock);
                board.released(lock, session);
                self.expect_next(lock, board);
            }
            (Input::Cancel { lock }, Answer::Cancelled { lock: l }) if lock == l => {
                standing.waits = None;
                board.waits_no_longer(lock, session);
            }
            (Input::Corrupt { lock, machine, value }, Answer::Corrupted { lock: l, old }) if lock == l => {
                board.fault(lock, *machine, *value, *old);
            }
            (Input::Try { lock, .. }, Answer::Busy { lock: l }) if lock == l => {}
            (_, Answer::Refused { .. }) => {}
            _ => return Err(NotAsked),
        }
        if self.standing.get(&session) == Some(&Standing::default()) {
            self.standing.remove(&session);
        }
        Ok(())
    }
}

#[cfg(test)]
mod tests;
