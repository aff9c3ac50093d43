//! Between the connections and the engine: what the client of a session says, and what it is answered.

use super::{Alone, Ask, At, NoSession, What};
use crate::board::{Party, Why};
use crate::cluster::Key;
use crate::connection::{Connection, Pending, Seat};
use crate::desk::{Desk, Then, Unasked};
use crate::log::{some_of, End, Event, Of};
use crate::requests::BadRequest;
use crate::shares::Guest;
use crate::turns::FIRST_TAG;
use std::fmt::Write as _;
use wozgirt_engine::{Answer, Client, Input, Label, Lock, NotALine, Token};

impl Desk {
    pub(crate) fn alone(&mut self) -> Option<&mut Alone> {
        self.mode.alone_mut()
    }

    /// The client gives its key. Its session begins or continues. One that is attached is over when the client closes the connection.
    pub(crate) fn begin_session(&mut self, connection: &mut Connection, key: Key, is_attached: bool) -> Then {
        if connection.seat.is_some() || connection.asking.has_asked {
            connection.tell_in_order(format_args!("refused {}", BadRequest::Rest(NotALine::Syntax)));
            return Then::Wait;
        }
        let (who, lease) = (connection.identity(), connection.lease.unwrap_or(self.settings.limits.longest_lease));
        let client = connection.client;
        let come = self.alone().map_or(Err(NoSession::Full), |alone| alone.come(key, who, lease, client));
        let (session, before) = match come {
            Ok(come) => come,
            Err(why) => return self.refuse_session(connection, why),
        };
        if !is_attached {
            connection.lease = Some(lease);
        }
        connection.seat = Some(Seat::keyed(key, Some(session), is_attached, self.now));
        connection.pending.push_back(Pending::Opening);
        self.tell_opened(connection);
        before.map_or(Then::Wait, Then::Moved)
    }

    fn refuse_session(&mut self, connection: &mut Connection, why: NoSession) -> Then {
        self.sums.refused("session");
        match why {
            NoSession::Others => {
                let event = Event::SessionRefused { who: &connection.caller.who };
                self.log.say_of(&connection.caller.guest, self.now, &event);
            }
            NoSession::Full => self.note_part(connection, Of::Sessions),
            NoSession::Unkept => {}
        }
        connection.tell_in_order("refused session");
        Then::Wait
    }

    /// Sends the client of a session what the session has, as soon as the engine has answered all that was asked for it.
    pub(crate) fn tell_opened(&mut self, connection: &mut Connection) {
        let (Some(seat), Some((number, session))) = (&connection.seat, self.mode.seated(connection)) else { return };
        if !session.asked.is_empty() {
            return;
        }
        let count = session.holds.len() + usize::from(session.waits.is_some());
        let mut text = format!("session {} {count}", seat.key);
        if seat.is_attached {
            let lease = connection.lease.map_or(0, |lease| lease.as_millis());
            let _ = write!(text, " {lease} {}", session.lease.as_millis());
        } else {
            text.push_str(" alone"); // else a client of several servers would take this one's locks for those of all
        }
        for (lock, token) in session.holds.iter() {
            let _ = write!(text, "\nholds {lock} {token}");
            self.board.kept(lock, *token, number);
        }
        if let Some(place) = &session.waits {
            let _ = write!(text, "\nwaits {}", place.lock);
        }
        connection.tell_in_place(|it| matches!(it, Pending::Opening), text);
        self.withdraw(connection); // the rules may have been read again meanwhile
    }

    /// The session of a client that says something, and the connection where it was, if it comes from there. One that has left
    /// begins anew, or continues where another connection has begun it since.
    fn session_of(&mut self, connection: &mut Connection) -> Option<(Client, Option<Client>)> {
        let (who, lease) = (connection.identity(), connection.lease.unwrap_or(self.settings.limits.longest_lease));
        let client = connection.client;
        let seat = connection.seat.as_mut()?;
        if let Some(session) = seat.session {
            return Some((session, None));
        }
        match self.alone()?.come(seat.key, who, lease, client) {
            Ok((session, before)) => {
                seat.session = Some(session);
                Some((session, before))
            }
            Err(why) => {
                if why == NoSession::Full {
                    self.note_part(connection, Of::Sessions);
                }
                None
            }
        }
    }

    /// An input of a session goes to the engine, with its number.
    pub(crate) fn ask_for_session(&mut self, connection: &mut Connection, number: u64, input: Input) -> Then {
        let Some((session, before)) = self.session_of(connection) else {
            self.board.asked_no_longer(&input);
            self.sums.refused("session");
            connection.tell_in_order(format_args!("{number} refused session"));
            return Then::Wait;
        };
        let client = connection.client;
        if let Some(it) = self.mode.session_mut(session) {
            let is_new = it.last_asked.map_or(true, |last| number > last);
            it.last_asked = it.last_asked.max(Some(number));
            it.asked.push_back(Ask { client, what: What::Input(number, input.clone(), is_new) });
        }
        self.ask_engine_line(format_args!("{session} {number} {session} {input}"));
        self.note_asked(connection, Pending::Numbered(number, input));
        before.map_or(Then::Wait, Then::Moved)
    }

    /// A session ends. What its client says next is another one.
    pub(crate) fn ask_session_to_leave(&mut self, connection: &mut Connection, number: u64) {
        self.sums.inputs += 1;
        let client = connection.client;
        let Some(session) = connection.seat.as_mut().and_then(|seat| seat.session.take()) else {
            return connection.tell_in_order(format_args!("{number} left"));
        };
        let last = self.last_asked(session);
        self.ask_to_forget(session, last);
        // the engine does not answer a leave: the next question after it shows when it is done
        self.ask_engine(session, &self.look());
        if let Some(alone) = self.alone() {
            alone.end(session);
        }
        self.mode.note_asked(session, Ask { client, what: What::Leave(number) });
        self.note_asked(connection, Pending::Leaving(number));
    }

    fn last_asked(&self, session: Client) -> Option<u64> {
        self.mode.session(session).and_then(|it| it.last_asked)
    }

    /// The session is over: its locks are free as soon as the engine has heard that, when it is the turn of one with this tag. Returns
    /// what it held, as a list of names.
    fn end_session(&mut self, session: Client, tag: u64, why: Why) -> String {
        // of one that has nothing the engine knows nothing
        if self.mode.session(session).is_some_and(|it| !it.is_blank()) {
            let last = self.last_asked(session);
            self.say_gone(session, tag, last);
        }
        if let Some(alone) = self.alone() {
            alone.end(session);
        }
        self.forget_session(session, why)
    }

    /// Nothing is known of the session any more. Returns what it held.
    pub(crate) fn forget_session(&mut self, session: Client, why: Why) -> String {
        let Some(it) = self.alone().and_then(|alone| alone.forget(session)) else { return String::new() };
        if let Some(place) = &it.waits {
            self.board.waits_no_longer(&place.lock, session);
        }
        for (lock, _) in it.holds.iter() {
            self.board.left(lock, session, why);
        }
        some_of(&it.held())
    }

    /// The connection of a session is gone: its client may come back, unless it has ended it. Returns what it held.
    pub(crate) fn leave_session(&mut self, connection: &mut Connection, end: End) -> String {
        let (now, longest) = (self.now, self.settings.limits.longest_lease);
        let Some(seat) = connection.seat.take() else { return String::new() };
        let found = seat.session.and_then(|number| Some((number, self.mode.session_mut(number)?)));
        let Some((number, session)) = found.filter(|(_, it)| it.at == At::Here(connection.client)) else {
            return String::new(); // it is at another connection
        };
        let is_engine_gone = matches!(end, End::Engine | End::Stop);
        let is_over = matches!(end, End::Lease | End::Kicked) || seat.is_attached || session.is_blank();
        if is_over && !is_engine_gone {
            return self.end_session(number, connection.asking.tag, Why::Parted(end));
        }
        let until = now + connection.lease.unwrap_or(longest);
        let until = if session.is_idle() { until.min(seat.is_wanted_until()) } else { until };
        if until <= now && !is_engine_gone {
            return self.end_session(number, connection.asking.tag, Why::Parted(end));
        }
        session.at = At::Away(Some(until).filter(|_| !is_engine_gone));
        some_of(&session.held())
    }

    /// An operator ends the session with this number, whose client is away. Returns what it held, if there is one.
    pub(crate) fn end_away_alone(&mut self, number: Client) -> Option<String> {
        self.mode.session(number).filter(|it| matches!(it.at, At::Away(Some(_))) && !it.is_left)?;
        Some(self.end_session(number, FIRST_TAG, Why::Parted(End::Kicked)))
    }

    /// Sessions whose clients have not come back are over.
    pub(crate) fn end_absent_sessions(&mut self) {
        let now = self.now;
        for session in self.alone().map(|alone| alone.late(now)).unwrap_or_default() {
            let held = self.end_session(session, FIRST_TAG, Why::Session);
            self.log.say(&Event::SessionOver { session, held: if held.is_empty() { "nothing" } else { &held } });
        }
    }

    /// An operator ends the hold of a session.
    pub(crate) fn ask_session_to_end(&mut self, operator: Client, session: Client, lock: Lock, token: Token) {
        self.mode.note_asked(session, Ask { client: operator, what: What::End(operator, lock.clone(), token) });
        self.ask_engine(session, &Input::Release { lock, token });
    }

    /// The engine has granted a session the lock for which it waited.
    pub(crate) fn granted_late(&mut self, session: Client, lock: Lock, token: Token) {
        self.board.granted(&lock, session, token, None, self.now);
        self.mode.hold(session, lock, token);
    }

    /// A place in a queue that the session had before the engine started.
    pub(crate) fn placed(
        &mut self,
        session: Client,
        lock: Lock,
        label: Label,
        answer: &Answer<'_>,
    ) -> Result<(), Unasked> {
        let party = self.party(session);
        match answer {
            Answer::Waiting { lock: l, .. } if lock == *l => self.board.waits(l, party, label, self.now),
            Answer::Granted { lock: l, token } if lock == *l => {
                self.board.waits(l, party, label, self.now);
                self.granted_late(session, lock, *token);
            }
            Answer::Refused { .. } => self.mode.free(session, lock),
            _ => return Err(Unasked),
        }
        Ok(())
    }

    /// A new input of a session was done.
    pub(crate) fn done_for(
        &mut self,
        session: Client,
        number: u64,
        input: &Input,
        answer: &Answer<'_>,
    ) -> Result<(), Unasked> {
        self.note_on_board(session, input, answer)?;
        let Some(alone) = self.alone() else { return Ok(()) };
        alone.did(session, number, *answer);
        if let (Input::Acquire { lock, label }, Answer::Waiting { .. }) = (input, answer) {
            alone.place(session, lock.clone(), *label);
        }
        Ok(())
    }

    /// A session, and on whose account it is.
    fn party(&self, session: Client) -> Party {
        let guest = self.mode.session(session).map(|it| it.guest.clone());
        Party { client: session, guest: guest.unwrap_or(Guest::UNKNOWN) }
    }

    fn note_on_board(&mut self, session: Client, input: &Input, answer: &Answer<'_>) -> Result<(), Unasked> {
        let party = self.party(session);
        match (input, answer) {
            (Input::Acquire { lock, label } | Input::Try { lock, label }, Answer::Granted { lock: l, token })
                if lock == l =>
            {
                self.board.granted(lock, party, *token, Some(*label), self.now);
            }
            (Input::Acquire { lock, label }, Answer::Waiting { lock: l, .. }) if lock == l => {
                self.board.waits(lock, party, *label, self.now);
            }
            (Input::Release { lock, .. }, Answer::Released { lock: l }) if lock == l => {
                self.board.released(lock, session);
            }
            (Input::Cancel { lock }, Answer::Cancelled { lock: l }) if lock == l => {
                self.board.waits_no_longer(lock, session);
            }
            (&Input::Corrupt { ref lock, machine, value }, &Answer::Corrupted { lock: l, old }) if *lock == l => {
                self.board.fault(lock, machine, value, old);
                self.log.say(&Event::Fault { client: session, who: "a session", lock, machine, value, old });
            }
            (Input::Try { lock, .. }, Answer::Busy { lock: l }) if lock == l => {}
            (_, Answer::Refused { .. }) => {}
            _ => return Err(Unasked),
        }
        Ok(())
    }

    /// Sends the client the answer to its input with this number.
    pub(crate) fn tell_done(&mut self, connection: &mut Connection, number: u64, answer: &Answer<'_>) {
        let its = |it: &Pending| matches!(it, Pending::Numbered(its, _) if *its == number);
        let Some(at) = connection.pending.iter().position(its) else { return };
        if let Some(Pending::Numbered(_, input)) = connection.pending.remove(at) {
            self.board.asked_no_longer(&input);
        }
        connection.note_answered(self.now);
        self.note_answered(connection);
        if let Answer::Refused { why, .. } = answer {
            self.sums.refused(why.word());
        }
        connection.tell_numbered(number, answer);
        connection.tell_what_waited();
    }

    /// Reports to the client that its session has left.
    pub(crate) fn tell_session_left(&mut self, connection: &mut Connection, number: u64) {
        let its = |it: &Pending| matches!(it, Pending::Leaving(its) if *its == number);
        if connection.pending.iter().any(its) {
            self.note_answered(connection);
            connection.tell_in_place(its, format_args!("{number} left"));
        }
    }
}
