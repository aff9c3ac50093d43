//! A single server: its sessions, at the start of the engine, and what the engine answers them.

use super::Server;
use crate::alone::{Ask, At, Start, What};
use crate::board::Why;
use crate::desk::{NotPermitted, Unasked};
use crate::log::Event;
use crate::mode::Mode;
use crate::questions::Own;
use crate::shares::Guest;
use crate::CannotServe;
use std::io;
use wozgirt_engine::{Answer, Client, Input, Lock, Token, NOBODY};

impl Server {
    /// The engine answers a session.
    pub(super) fn answer_session(&mut self, number: Client, answer: &Answer<'_>) -> Result<(), Unasked> {
        let Some(alone) = self.desk.alone() else { return Err(Unasked) };
        let Some(session) = alone.session_mut(number) else {
            return Ok(()); // it is over
        };
        let is_place = matches!(session.asked.front(), Some(Ask { what: What::Place(..), .. }));
        if let (Answer::Granted { lock, token }, Some(place), false) = (answer, &session.waits, is_place) {
            if place.lock == *lock {
                let lock = place.lock.clone();
                self.granted_late(number, lock, *token);
                return Ok(());
            }
        }
        let Ask { client, what } = session.asked.pop_front().ok_or(Unasked)?;
        match what {
            What::Place(lock, label) => self.desk.placed(number, lock, label, answer)?,
            What::Input(input_number, input, is_new) => {
                if is_new {
                    self.desk.done_for(number, input_number, &input, answer)?;
                }
                if let Some(connection) = self.talks.get_mut(client) {
                    self.desk.tell_done(connection, input_number, answer);
                }
            }
            What::End(operator, lock, token) => self.ended_for_session(number, operator, lock, token, answer),
            What::Withdraw(lock) => self.withdrawn_for_session(number, client, lock, answer),
            What::Leave(leave) => {
                self.desk.forget_session(number, Why::Left);
                if let Some(connection) = self.talks.get_mut(client) {
                    self.desk.tell_session_left(connection, leave);
                }
            }
        }
        self.go_on(client);
        self.open_if_answered(number);
        Ok(())
    }

    /// The connection where the session is.
    fn client_of(&self, session: Client) -> Option<Client> {
        let at = self.desk.mode.session(session)?.at;
        if let At::Here(client) = at {
            Some(client)
        } else {
            None
        }
    }

    fn granted_late(&mut self, session: Client, lock: Lock, token: Token) {
        self.desk.granted_late(session, lock.clone(), token);
        let Some(client) = self.client_of(session) else { return };
        let Some(connection) = self.talks.get_mut(client) else { return };
        if !connection.is_to_be_opened() {
            connection.tell(Answer::Granted { lock: &lock, token });
            self.talks.touch(client);
        }
    }

    /// A client that has come back while something was on its way gets what the session has when that is answered.
    fn open_if_answered(&mut self, session: Client) {
        let Some(client) = self.client_of(session) else { return };
        let Some(connection) = self.talks.get_mut(client).filter(|it| it.is_to_be_opened()) else { return };
        self.desk.tell_opened(connection);
        self.go_on(client);
    }

    fn ended_for_session(&mut self, session: Client, operator: Client, lock: Lock, token: Token, answer: &Answer<'_>) {
        if matches!(answer, Answer::Released { .. }) {
            self.desk.board.left(&lock, session, Why::Operator);
            self.desk.mode.free(session, lock.clone());
        }
        self.tell_ended(operator, session, &lock, token, answer);
    }

    fn withdrawn_for_session(&mut self, session: Client, client: Client, lock: Lock, answer: &Answer<'_>) {
        if !self.desk.is_withdrawn(session, &lock, answer) {
            return;
        }
        self.desk.mode.free(session, lock.clone());
        if let Some(connection) = self.talks.get_mut(client) {
            connection.tell(NotPermitted(&lock));
        }
    }

    /// Writes what is new of sessions, before a client gets an answer about it. If that cannot be, they end with this server.
    pub(super) fn write_sessions(&mut self) {
        let Some(alone) = self.desk.alone() else { return };
        let (ended, written) = (alone.take_ended(), alone.write());
        for it in ended {
            // its session has left all
            self.tell_ended(it.operator, it.session, &it.lock, it.token, &Answer::Released { lock: &it.lock });
        }
        if let Err(fault) = written {
            self.say_unkept(&fault);
        }
    }

    fn say_unkept(&mut self, fault: &io::Error) {
        if !std::mem::replace(&mut self.engine.says_unkept, true) {
            self.desk.log.say(&Event::SessionsUnkept { fault });
        }
    }

    /// The engine is to be started: what it is started for is known, and what it reads then is written.
    pub(super) fn prepare_engine(&mut self) -> Result<(), CannotServe> {
        let mut words = self.desk.settings.engine_words();
        let Mode::Alone(alone) = &mut self.desk.mode else { return Ok(()) };
        if alone.start == Start::Turning {
            let holders = alone.write_holders().map_err(CannotServe::Sessions)?;
            alone.start = Start::Serving;
            let holders = holders.map(|path| path.to_string_lossy().into_owned());
            words.extend(holders.into_iter().flat_map(|path| ["--holders".into(), path]));
        } else {
            alone.prepare().map_err(CannotServe::Sessions)?;
        }
        self.desk.engine.set_words(words);
        Ok(())
    }

    /// The engine has started: it is asked how all locks are, and first gets what was done and which sessions wait, if it is to serve.
    pub(super) fn begin_engine(&mut self) {
        let now = self.desk.now;
        self.desk.board.forget();
        self.engine.held_before.clear();
        if let Mode::Alone(alone) = &mut self.desk.mode {
            if alone.start == Start::Serving {
                for (session, lock, token) in alone.holds() {
                    let guest = alone.session(session).map_or(Guest::UNKNOWN, |it| it.guest.clone());
                    self.desk.board.holds(lock, (session, guest), token, now);
                }
                for line in alone.lines() {
                    self.desk.engine.ask_line(line);
                }
            }
        }
        for sight in self.desk.board.locks() {
            self.desk.engine.ask_line(format_args!("{NOBODY} {}", Input::Stats { lock: sight.lock.clone() }));
            self.desk.questions.put(Own::Begin(sight.lock.clone()));
        }
        if self.desk.board.any().is_some() {
            self.desk.engine.ask_line("state");
            self.desk.questions.put(Own::State);
        }
    }

    /// The engine has answered how all locks are: whether it serves from here on.
    pub(super) fn has_begun(&mut self) -> bool {
        let open = self.engine.held_before.iter().filter_map(|lock| {
            let holder = self.desk.board.lock(lock)?.holder?;
            Some((lock.clone(), holder.token))
        });
        let open: Vec<(Lock, Token)> = open.collect();
        let now = self.desk.now;
        let Mode::Alone(alone) = &mut self.desk.mode else { return true };
        if alone.start == Start::Serving {
            alone.begin(now);
            return true;
        }
        let has_holds = alone.settle(&open);
        alone.start = if has_holds { Start::Turning } else { Start::Serving };
        self.desk.engine.note_ready();
        if has_holds {
            self.desk.engine.end();
        } else {
            self.begin_engine();
        }
        false
    }

    /// Whether the engine ends since it is to be started with the holders.
    pub(super) fn is_turning(&self) -> bool {
        self.stopping.is_none() && matches!(&self.desk.mode, Mode::Alone(alone) if alone.start == Start::Turning)
    }
}
