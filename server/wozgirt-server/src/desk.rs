//! Between the connections and the engine: lines of a connection become inputs, and answers become lines.

mod answering;
mod holding;
mod parting;
mod parts;
mod taking;
#[cfg(test)]
pub(crate) mod tests;
mod waiting;
mod withdrawing;

pub(crate) use parts::Parts;
pub(crate) use withdrawing::NotPermitted;

use crate::board::Board;
use crate::connection::{Connection, Door, Pending};
use crate::engine::Engine;
use crate::grants::Grants;
use crate::log::{End, Log};
use crate::mode::Mode;
use crate::questions::Questions;
use crate::rules::Rules;
use crate::settings::Settings;
use crate::status::Locks;
use crate::sums::Sums;
use std::fmt;
use std::rc::Rc;
use std::time::{Duration, Instant};
use wozgirt_engine::{Client, Input, Lock, Token, NOBODY};

/// What is left to do after some lines.
#[derive(Debug, PartialEq, Eq)]
pub enum Then {
    /// Nothing.
    Wait,
    /// To end the connection.
    End(End),
    /// To have the client hear of a change of the locks.
    Watch,
    /// To end this other connection, whose session has come here.
    Moved(Client),
    /// What an operator said.
    Operator(Order),
}

/// What an operator says, that concerns others.
#[derive(Debug, PartialEq, Eq)]
pub enum Order {
    /// To list the connected clients.
    Clients,
    /// To end this client's connection.
    Kick(Client),
    /// To end this client's hold of a lock with a token.
    EndHold(Client, Lock, Token),
    /// To end the server.
    Stop,
}

/// An answer that no line asked for.
#[derive(Debug)]
pub struct Unasked;

/// Everything but the connections.
pub struct Desk {
    /// The words of the command line.
    pub settings: Settings,
    /// The rules: which users may use them.
    pub rules: Rc<Rules>,
    /// The engine.
    pub engine: Engine,
    /// How far it is with what it was asked.
    pub questions: Questions,
    /// So much waits for it that nothing more is taken of clients, and nobody is let in.
    pub is_full: bool,
    /// What it answered.
    pub board: Board,
    /// What is counted.
    pub sums: Sums,
    /// What was said of those that have their part.
    pub parts: Parts,
    /// The log.
    pub log: Log,
    /// The record of grants, if there is one.
    pub grants: Option<Grants>,
    /// A single server, or one of several.
    pub mode: Mode,
    /// The time of this round.
    pub now: Instant,
}

impl Desk {
    /// Asks the engine. Where there is a log, what goes to the engine comes from there.
    pub fn ask_engine(&mut self, client: Client, input: &Input) {
        self.ask_engine_line(format_args!("{client} {input}"));
    }

    /// The same for any line.
    pub(crate) fn ask_engine_line(&mut self, line: impl fmt::Display) {
        self.engine.ask_line(line);
        if self.questions.ask() {
            self.mark();
        }
    }

    /// Asks the engine how far it is.
    pub fn mark(&mut self) {
        self.questions.mark(self.now);
        self.engine.ask_line(format_args!("{NOBODY} {}", self.look()));
    }

    /// A look at a lock, whose answer shows that all that was asked before is done.
    pub(crate) fn look(&self) -> Input {
        Input::Stats { lock: self.board.some_name() }
    }

    /// How long the oldest question of the server's own has been unanswered.
    pub fn engine_silence(&self) -> Duration {
        self.questions.oldest().map_or(Duration::ZERO, |asked| self.now.saturating_duration_since(asked))
    }

    /// How many lines may wait for the engine, or for the log that this server has with others.
    pub fn waiting_lines(&self) -> usize {
        self.mode.waiting_lines(&self.questions)
    }

    /// Sends more of the list of all locks, until this time.
    pub fn tell_listing(&mut self, connection: &mut Connection, until: Instant) {
        let known = std::mem::take(&mut connection.caller.known);
        let view = Locks { board: &self.board, known: &known, now: self.now };
        connection.tell_listing(|listing, text, most| listing.go_on(text, &view, most, until));
        connection.caller.known = known;
    }

    pub(crate) fn note_asked(&mut self, connection: &mut Connection, pending: Pending) {
        self.questions.askers += usize::from(connection.asking.asked == 0);
        connection.asking.asked += 1;
        connection.asking.has_asked = true;
        connection.pending.push_back(pending);
    }

    /// One line of the connection is answered.
    pub(crate) fn note_answered(&mut self, connection: &mut Connection) {
        connection.asking.asked -= 1;
        self.questions.askers -= usize::from(connection.asking.asked == 0);
    }

    /// The lease of a new connection.
    pub fn first_lease(&self, door: Door) -> Option<Duration> {
        let has_one = match door {
            Door::Network | Door::Proxied => true,
            Door::Clients => self.settings.limits.is_lease_for_all || self.mode.gives_leases(),
            Door::Operators => false,
        };
        has_one.then_some(self.settings.limits.longest_lease)
    }
}
