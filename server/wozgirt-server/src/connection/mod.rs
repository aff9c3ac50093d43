//! One connection: what it said and was not answered yet, and answers that it has not read yet.

mod caller;
mod pending;
mod seat;
mod told;
mod wire;

pub use caller::{Caller, Door, Known};
pub use pending::Pending;
pub use seat::Seat;
pub use wire::Reading;

use crate::cluster::Who;
use crate::grants::Ticket;
use crate::log::End;
use crate::status::Listing;
use crate::stream::Stream;
use std::collections::VecDeque;
use std::fmt::Display;
use std::io;
use std::time::{Duration, Instant};
use told::Told;
use wire::Wire;
use wozgirt_engine::{Client, Lock, Token};
use wozgirt_system::Interest;

/// How much is read of a connection before the others have their turn.
pub const SHARE: usize = 4 << 10;
/// How many lines of a connection may wait for the engine's answer: then no more is read of it.
pub const MOST_PENDING: usize = 128;

/// What a client without a session has, as far as the engine has answered.
#[derive(Debug, Default)]
pub struct Has {
    /// The lock for which it waits.
    pub waits_for: Option<Lock>,
    /// The locks that it holds.
    pub holds: Vec<Lock>,
}

/// When a connection may ask the engine.
#[derive(Debug, Default)]
pub struct Asking {
    /// It is in the queue of those that have said more than was taken.
    pub is_queued: bool,
    /// When its turn to ask the engine comes, and its place in the queue of those that wait for that.
    pub tag: u64,
    pub place: Option<u64>,
    /// How many of its lines wait for the engine, and whether one ever did.
    pub asked: usize,
    pub has_asked: bool,
}

/// One connection.
#[derive(Debug)]
pub struct Connection {
    /// Its number.
    pub client: Client,
    /// The client at the other end.
    pub caller: Caller,
    /// Lines without an answer, the oldest first.
    pub pending: VecDeque<Pending>,
    /// Its session, if it has one.
    pub seat: Option<Seat>,
    /// What it has, if it has no session.
    pub has: Has,
    /// The silence after which it is taken for dead.
    pub lease: Option<Duration>,
    /// Why it is to be closed when all is sent to it, if it is.
    pub ending: Option<End>,
    /// Its turns at the engine.
    pub asking: Asking,
    /// Something is to be written to it at the end of this round.
    pub is_dirty: bool,
    /// The number of changes of the locks that it has seen, as long as it waits for another one.
    pub awaits_change_of: Option<u64>,
    wire: Wire,
    told: Told,
}

impl Connection {
    /// A new connection, which may leave this many bytes unread.
    pub fn new(client: Client, caller: Caller, stream: Stream, most_unread: usize, now: Instant) -> Connection {
        Connection {
            client,
            caller,
            pending: VecDeque::new(),
            seat: None,
            has: Has::default(),
            lease: None,
            ending: None,
            asking: Asking::default(),
            is_dirty: false,
            awaits_change_of: None,
            wire: Wire::new(stream, now),
            told: Told::new(most_unread),
        }
    }

    /// Its client is answered.
    pub fn note_answered(&mut self, now: Instant) {
        self.seat.iter_mut().for_each(|seat| seat.answered = now);
    }

    /// Whose a session is that it begins.
    pub fn identity(&self) -> Who {
        self.caller.identity.clone()
    }

    /// Its socket.
    pub fn stream(&self) -> &Stream {
        &self.wire.stream
    }

    /// Reads its share.
    pub fn read(&mut self, buffer: &mut [u8; SHARE], now: Instant) -> io::Result<Reading> {
        self.wire.read(buffer, now)
    }

    /// Reads a little of what it still says, and ignores it.
    pub fn drain(&mut self, buffer: &mut [u8; SHARE]) {
        self.wire.drain(buffer);
    }

    /// The other end says nothing more; it may still read.
    pub fn note_said_all(&mut self) {
        self.wire.has_said_all = true;
    }

    /// The other end is gone, and gets nothing more. Reads its last share: whether something is to be done that it has said.
    pub fn note_gone(&mut self, buffer: &mut [u8; SHARE]) -> bool {
        self.wire.note_gone(buffer)
    }

    /// Whether so much was read already that the rest waits at the system.
    pub fn is_read_enough(&self) -> bool {
        self.wire.is_read_enough()
    }

    /// Whether a line has begun that can have no end.
    pub fn has_endless_line(&self) -> bool {
        self.wire.has_endless_line()
    }

    /// What was read and not taken yet, out of the connection for a while; the rest goes back.
    pub fn take_input(&mut self) -> Vec<u8> {
        std::mem::take(&mut self.wire.input)
    }

    /// Gives back what was taken, without its first bytes.
    pub fn put_back(&mut self, mut input: Vec<u8>, taken: usize) {
        input.drain(..taken);
        self.wire.input = input;
    }

    /// The next number for an input of a client that gives none.
    pub fn next_number(&mut self) -> u64 {
        self.seat.as_mut().map_or(1, |seat| {
            seat.last += 1;
            seat.last
        })
    }

    /// Whether a line is there that may be taken now, or one that can have no end.
    pub fn has_line(&self) -> bool {
        self.takes_more() && self.wire.has_line()
    }

    /// Whether its client may come back to its session, at another connection.
    pub fn may_be_left(&self) -> bool {
        self.seat.as_ref().is_some_and(|seat| seat.is_keyed && !seat.is_attached)
    }

    /// Whether more of its lines may be taken: not as long as many are unanswered, or the answers unread or untold.
    pub fn takes_more(&self) -> bool {
        // whose the session is, that it said, is not known before the log says so
        let is_opening = matches!(self.pending.back(), Some(Pending::Opening));
        let is_waiting = is_opening || self.told.has_listing;
        self.ending.is_none() && !is_waiting && self.pending.len() < MOST_PENDING && self.told.has_room()
    }

    /// Whether its session begins next, when the log says so.
    pub fn is_opening(&self) -> bool {
        matches!(self.pending.front(), Some(Pending::Opening))
    }

    /// Whether its session begins, after the answers to what it said before.
    pub fn is_to_be_opened(&self) -> bool {
        self.pending.iter().any(|it| matches!(it, Pending::Opening))
    }

    /// Lists all locks after the answers to what it said before.
    pub fn put_listing(&mut self, listing: Listing) {
        self.told.has_listing = true;
        self.pending.push_back(Pending::Listing(listing));
    }

    /// Takes out the line that the engine answers next. Before one that an operator asked for there may be a list that is being sent.
    pub fn take_asked(&mut self) -> Option<Pending> {
        match self.pending.iter().position(Pending::is_asked)? {
            0 => self.pending.pop_front(),
            place => self.pending.remove(place),
        }
    }

    /// All holds that operators wait to end.
    pub fn ended(&self) -> Vec<(Client, Lock, Token)> {
        self.pending.iter().filter_map(Pending::ended).collect()
    }

    /// Sends an operator what came of the end of a hold that it asked for, in its place among the answers.
    pub fn tell_ending(&mut self, line: impl Display) {
        self.tell_in_place(|it| matches!(it, Pending::Ending), line);
    }

    /// Sends it this instead of the first line of its kind.
    pub fn tell_in_place(&mut self, is_its: impl Fn(&Pending) -> bool, line: impl Display) {
        self.told.tell_in_place(&mut self.pending, is_its, line);
    }

    /// Sends more of the list of all locks, if that is due: by `go_on`, which gets the text and its longest length,
    /// and says whether it is done.
    pub fn tell_listing(&mut self, go_on: impl FnOnce(&mut Listing, &mut Vec<u8>, usize) -> bool) {
        self.told.tell_listing(&mut self.pending, go_on);
    }

    /// Whether there is a list of all locks that is due, and room for more of it.
    pub fn is_listing(&self) -> bool {
        matches!(self.pending.front(), Some(Pending::Listing(_))) && self.told.has_room()
    }

    /// Sends it something that the server says itself, after the answers to what it said before.
    pub fn tell_in_order(&mut self, line: impl Display) {
        self.told.tell_in_order(&mut self.pending, line);
    }

    /// Sends it the answer to an input, with the number if the client gave that.
    pub fn tell_numbered(&mut self, number: u64, line: impl Display) {
        if self.seat.as_ref().is_some_and(|seat| seat.is_keyed) {
            self.tell(format_args!("{number} {line}"));
        } else {
            self.tell(line);
        }
    }

    /// Sends it something at once, or after the list of all locks that is being sent.
    pub fn tell(&mut self, line: impl Display) {
        self.told.tell(&self.pending, line);
    }

    /// Sends what waited only for the answers that are sent now.
    pub fn tell_what_waited(&mut self) {
        self.told.tell_what_waited(&mut self.pending);
    }

    /// Its answers wait until this block of the record of grants is on the disk.
    pub fn await_block(&mut self, ticket: Ticket) {
        self.told.awaits = Some(ticket);
    }

    /// The record is on the disk up to this block: whether more may be sent to it.
    pub fn is_free(&mut self, done: Ticket) -> bool {
        self.told.awaits = self.told.awaits.filter(|awaited| *awaited > done);
        self.told.awaits.is_none()
    }

    /// Writes what it takes.
    pub fn write(&mut self, now: Instant) -> io::Result<()> {
        if self.told.awaits.is_some() {
            return Ok(());
        }
        if self.wire.is_gone {
            self.told.outbox.clear();
            return Ok(());
        }
        let is_any = self.told.outbox.write_to(&mut self.wire.stream)?;
        self.told.note_written(is_any, now);
        Ok(())
    }

    /// Why it is to be closed now: all that it asked for is sent.
    pub fn is_over(&self) -> Option<End> {
        let is_told_all = self.pending.is_empty() && self.told.outbox.is_empty();
        match self.ending {
            Some(end) => is_told_all.then_some(end),
            None => (self.wire.has_said_all && is_told_all && !self.has_line()).then_some(End::Closed),
        }
    }

    /// What is to be waited for at its socket, if that has changed.
    pub fn new_interest(&mut self, is_engine_there: bool) -> Option<Interest> {
        if self.wire.is_gone {
            return None; // it is waited for no longer
        }
        let reads = is_engine_there && !self.wire.has_said_all && self.takes_more() && !self.is_read_enough();
        let interest = Interest { reads, writes: !self.told.outbox.is_empty() };
        let is_new = interest != self.wire.interest;
        self.wire.interest = interest;
        is_new.then_some(interest)
    }

    /// Its lease seems to be over, and the server may not have read what it said: whether it is over.
    pub fn is_silent_for_sure(&mut self, buffer: &mut [u8; SHARE], now: Instant) -> bool {
        let may_be_owed = !self.wire.interest.reads && self.told.outbox.is_empty();
        !(may_be_owed && self.wire.is_owed(buffer, now))
    }

    /// Whether it was silent for longer than its lease.
    pub fn is_silent(&self, now: Instant) -> bool {
        self.lease.is_some_and(|lease| self.wire.is_silent(lease, now))
    }

    /// Whether it left what was sent to it unread for longer than this.
    pub fn is_deaf(&self, now: Instant, longest: Duration) -> bool {
        self.told.stuck.is_some_and(|since| now.saturating_duration_since(since) > longest)
    }

    /// Whether it takes nothing of what is sent to it, as far as is known.
    pub fn is_stuck(&self) -> bool {
        self.told.stuck.is_some()
    }

    /// When it is silent or deaf, if nothing happens until then.
    pub fn deadline(&self, longest: Duration) -> Option<Instant> {
        let silent = self.lease.map(|lease| self.wire.heard + lease);
        let deaf = self.told.stuck.map(|since| since + longest);
        silent.into_iter().chain(deaf).min()
    }
}
