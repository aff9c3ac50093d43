//! Rules that are read again: a client that waits for a lock that it may no longer have waits for it no longer.

use super::Desk;
use crate::alone::{Ask, What};
use crate::connection::{Connection, Pending};
use std::fmt;
use wozgirt_engine::{Answer, Client, Input, Lock};

/// The line that such a client gets after `waiting`.
pub struct NotPermitted<'a>(pub &'a Lock);

impl fmt::Display for NotPermitted<'_> {
    fn fmt(&self, f: &mut fmt::Formatter<'_>) -> fmt::Result {
        write!(f, "refused permission {}", self.0)
    }
}

impl Desk {
    /// Cancels what the client of a single server waits for, or has asked for, where the rules do not permit that. What it holds stays.
    pub fn withdraw(&mut self, connection: &mut Connection) {
        if connection.caller.is_operator() {
            return;
        }
        match (&connection.seat, self.mode.seated(connection)) {
            (None, _) => {
                let asked = connection.pending.iter().filter_map(|it| match it {
                    Pending::Asked(input) => wanted(input),
                    _ => None,
                });
                for lock in self.forbidden(connection, asked.chain(connection.has.waits_for.as_ref())) {
                    self.ask_engine(connection.client, &Input::Cancel { lock: lock.clone() });
                    self.note_asked(connection, Pending::Withdrawn(lock));
                }
            }
            (Some(_), None) => {}
            (Some(_), Some((number, session))) => {
                let asked = session.asked.iter().filter_map(|ask| match &ask.what {
                    What::Input(_, input, _) => wanted(input),
                    _ => None,
                });
                let waits = session.waits.iter().map(|place| &place.lock);
                for lock in self.forbidden(connection, asked.chain(waits)) {
                    self.withdraw_for_session(number, connection.client, lock);
                }
            }
        }
    }

    fn forbidden<'a>(&self, connection: &Connection, locks: impl Iterator<Item = &'a Lock>) -> Vec<Lock> {
        let known = &connection.caller.known;
        locks.filter(|lock| !self.rules.permits(lock, known)).cloned().collect()
    }

    fn withdraw_for_session(&mut self, session: Client, client: Client, lock: Lock) {
        self.mode.note_asked(session, Ask { client, what: What::Withdraw(lock.clone()) });
        self.ask_engine(session, &Input::Cancel { lock });
    }

    /// The engine has answered that: whether the client is to hear of it. It is not if the grant came first.
    pub(crate) fn is_withdrawn(&mut self, client: Client, lock: &Lock, answer: &Answer<'_>) -> bool {
        let is_cancelled = matches!(answer, Answer::Cancelled { .. });
        if is_cancelled {
            self.board.waits_no_longer(lock, client);
            self.sums.refused("permission");
        }
        is_cancelled
    }
}

/// The lock for which a client may wait in consequence of this input.
fn wanted(input: &Input) -> Option<&Lock> {
    match input {
        Input::Acquire { lock, .. } => Some(lock),
        _ => None,
    }
}
