//! What the engine answers a connection, and what that changes.

use super::{Desk, NotPermitted, Unasked};
use crate::board::Why;
use crate::connection::{Connection, Pending};
use crate::log::{some_of, Event};
use wozgirt_engine::{Answer, Client, Input, Lock, Token};

impl Desk {
    /// Sends the connection an answer of the engine. If it is about a hold that an operator ends: which operator, and which hold.
    pub fn tell_answer(
        &mut self,
        connection: &mut Connection,
        answer: &Answer<'_>,
    ) -> Result<Option<(Client, Lock, Token)>, Unasked> {
        if let (Answer::Granted { lock: l, token }, Some(lock)) = (answer, connection.has.waits_for.clone()) {
            if lock == *l {
                connection.has.waits_for = None;
                self.board.granted(l, connection.client, *token, None, self.now);
                connection.has.holds.push(lock);
                connection.tell(answer);
                return Ok(None);
            }
        }
        let pending = connection.take_asked().ok_or(Unasked)?;
        self.note_answered(connection);
        let mut ended = None;
        match (pending, answer) {
            (Pending::Ended(operator, lock, token), _) => {
                self.note(connection, &Input::Release { lock: lock.clone(), token }, Why::Operator, answer)?;
                ended = Some((operator, lock, token));
            }
            (Pending::Withdrawn(lock), Answer::Cancelled { .. } | Answer::Refused { .. }) => {
                if self.is_withdrawn(connection.client, &lock, answer) {
                    connection.has.waits_for = None;
                    connection.tell(NotPermitted(&lock));
                }
            }
            (Pending::Left, Answer::Stats(_)) => {
                self.forget(connection, Why::Left);
                connection.tell("left");
            }
            // an engine that refuses every line for a while has not done the leave either
            (Pending::Left, Answer::Refused { .. }) => connection.tell(answer),
            (Pending::Asked(input), _) => {
                self.note(connection, &input, Why::Released, answer)?;
                connection.tell(answer);
            }
            _ => return Err(Unasked),
        }
        connection.tell_what_waited();
        Ok(ended)
    }

    /// What the answer to an input changes on the board and at the connection. `why`: why a hold ends that this releases.
    fn note(
        &mut self,
        connection: &mut Connection,
        input: &Input,
        why: Why,
        answer: &Answer<'_>,
    ) -> Result<(), Unasked> {
        let client = connection.client;
        self.board.asked_no_longer(input);
        let party = (client, connection.caller.guest.clone());
        match (input, answer) {
            (Input::Acquire { lock, label } | Input::Try { lock, label }, Answer::Granted { lock: l, token })
                if lock == l =>
            {
                connection.has.holds.push(lock.clone());
                self.board.granted(lock, party, *token, Some(*label), self.now);
            }
            (Input::Acquire { lock, label }, Answer::Waiting { lock: l, .. }) if lock == l => {
                connection.has.waits_for = Some(lock.clone());
                self.board.waits(lock, party, *label, self.now);
            }
            (Input::Release { lock, .. }, Answer::Released { lock: l }) if lock == l => {
                connection.has.holds.retain(|held| held != lock);
                self.board.left(lock, client, why);
            }
            (Input::Cancel { lock }, Answer::Cancelled { lock: l }) if lock == l => {
                connection.has.waits_for = None;
                self.board.waits_no_longer(lock, client);
            }
            (&Input::Corrupt { ref lock, machine, value }, &Answer::Corrupted { lock: l, old }) if *lock == l => {
                self.board.fault(lock, machine, value, old);
                self.log.say(&Event::Fault { client, who: &connection.caller.who, lock, machine, value, old });
            }
            (Input::Try { lock, .. }, Answer::Busy { lock: l }) if lock == l => {}
            (Input::Stats { lock }, Answer::Stats(stats)) if *lock == stats.lock => {}
            (_, Answer::Refused { why: word, .. }) => self.sums.refused(word.word()),
            _ => return Err(Unasked),
        }
        Ok(())
    }

    /// The client holds nothing and waits for nothing. Returns what it held, as a list of names.
    pub(super) fn forget(&mut self, connection: &mut Connection, why: Why) -> String {
        let client = connection.client;
        if let Some(lock) = connection.has.waits_for.take() {
            self.board.waits_no_longer(&lock, client);
        }
        let mut held = std::mem::take(&mut connection.has.holds);
        held.retain(|lock| self.board.left(lock, client, why));
        some_of(&held)
    }
}
