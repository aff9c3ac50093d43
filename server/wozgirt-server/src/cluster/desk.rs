//! Between the connections and the log: what a client says becomes a line of the next entry.

use super::{Key, Line, Session, Standing};
use crate::board::Why;
use crate::connection::{Connection, Pending, Seat};
use crate::desk::{Desk, Then};
use crate::log::{some_of, End, Event, Of};
use crate::requests::BadRequest;
use crate::shares::Share;
use wozgirt_engine::{Answer, Input, NotALine, Token};

impl Desk {
    /// The client gives its key. Its session begins, or continues, where the log has it.
    pub(crate) fn put_session(&mut self, connection: &mut Connection, key: u64, is_attached: bool) -> Then {
        if is_attached {
            // when a client continues with the next server, the end of a connection says nothing
            self.sums.refused("session");
            connection.tell_in_order("refused session");
            return Then::Wait;
        }
        if connection.seat.is_some() {
            connection.tell_in_order(format_args!("refused {}", BadRequest::Rest(NotALine::Syntax)));
            return Then::Wait;
        }
        if !self.mode.knows(key) && !self.may_begin(connection) {
            connection.tell_in_order("refused session");
            return Then::Wait;
        }
        let Some(cluster) = self.mode.in_log_mut() else { return Then::Wait };
        connection.seat = Some(Seat::keyed(key, None, false, self.now));
        connection.pending.push_back(Pending::Opening);
        let who = connection.identity();
        cluster.put(Line::Here(key, who.clone()));
        cluster.owns.opening.push_back(connection.client);
        if !cluster.owns.admits(key, &who) {
            return Then::Wait; // the log says whose it is
        }
        cluster.owns.come(key, who, connection.client).map_or(Then::Wait, Then::Moved)
    }

    /// The key of a client that says something for the log. It is drawn if the client gave none. A session that is new, or has
    /// left, begins before that.
    fn key(&mut self, connection: &mut Connection) -> Option<Key> {
        let now = self.now;
        let cluster = self.mode.in_log_mut()?;
        if connection.seat.is_none() {
            let key = cluster.draw().ok()?;
            connection.seat = Some(Seat::drawn(key, now));
            cluster.owns.come(key, connection.identity(), connection.client);
        }
        let who = &connection.caller.identity;
        let seat = connection.seat.as_mut()?;
        if std::mem::take(&mut seat.has_left) {
            cluster.put(Line::Here(seat.key, who.clone()));
            cluster.owns.opening.push_back(connection.client);
        }
        Some(seat.key)
    }

    /// An input goes into the log; a look is answered at once.
    pub(crate) fn put_input(&mut self, connection: &mut Connection, number: Option<u64>, input: Input) {
        if let Input::Stats { lock } = &input {
            return self.tell_stats(connection, lock);
        }
        let begins = connection.seat.as_ref().map_or(true, |seat| seat.has_left);
        if begins && !self.may_begin(connection) {
            self.board.asked_no_longer(&input);
            return match number {
                None => connection.tell_in_order("refused session"),
                Some(number) => connection.tell_in_order(format_args!("{number} refused session")),
            };
        }
        let Some(key) = self.key(connection) else { return };
        let number = number.unwrap_or_else(|| connection.next_number());
        self.mode.put(Line::Do(key, number, input.clone()));
        connection.pending.push_back(Pending::Numbered(number, input));
    }

    /// Whether one more session of this user or address may be in the log: as many may be there as of a single server.
    fn may_begin(&mut self, connection: &Connection) -> bool {
        let share = Share::beyond(self.settings.most_sessions());
        let may = self.mode.sessions().map_or(true, |counts| share.permits(counts, &connection.caller.guest));
        if !may {
            self.sums.refused("session");
            self.note_part(connection, Of::Sessions);
        }
        may
    }

    /// A leave ends the session. What the client says next is another one, or the same from the beginning.
    pub(crate) fn put_leave(&mut self, connection: &mut Connection, number: Option<u64>) {
        self.sums.inputs += 1;
        let Some(key) = self.key(connection) else { return };
        connection.pending.push_back(Pending::Leaving(number.unwrap_or(0)));
        self.mode.put_end(key, Why::Left);
        if let Some(seat) = &mut connection.seat {
            seat.has_left = true;
        }
    }

    pub(crate) fn tell_stats(&self, connection: &mut Connection, lock: &str) {
        let Some(stats) = self.board.stats(lock) else { return };
        connection.tell_in_order(Answer::Stats(stats));
    }

    /// Sends an operator where this server is in the log.
    pub(crate) fn tell_cluster(&mut self, connection: &mut Connection) {
        let Some(cluster) = self.mode.in_log() else {
            self.sums.refused("cluster");
            connection.tell_in_order("refused cluster");
            return;
        };
        let (position, digest) = cluster.replica.digests.last();
        let alive: Vec<String> =
            cluster.member.alive.iter().flatten().map(|it| format!("{}:{}", it.name, it.incarnation)).collect();
        let me = cluster.member.me.as_ref().map_or("- 0".into(), ToString::to_string);
        let alive = if alive.is_empty() { "-".into() } else { alive.join(",") };
        connection.tell_in_order(format_args!("cluster {me} {position} {digest} {} {alive}", cluster.replica.saved.1));
    }

    /// Sends the client an answer to its own input, if it waits for that.
    pub(crate) fn tell_numbered(&mut self, connection: &mut Connection, number: u64, answer: &Answer<'_>) {
        if !matches!(connection.pending.front(), Some(Pending::Numbered(first, _)) if *first == number) {
            return;
        }
        if let Some(Pending::Numbered(_, input)) = connection.pending.pop_front() {
            self.board.asked_no_longer(&input);
        }
        connection.note_answered(self.now);
        if let Answer::Refused { why, .. } = answer {
            self.sums.refused(why.word());
        }
        connection.tell_numbered(number, answer);
        connection.tell_what_waited();
    }

    /// Sends the client the grant of what it waited for. A client whose session is on its way here gets it then.
    pub(crate) fn tell_grant(&self, connection: &mut Connection, lock: &str, token: Token) {
        if !matches!(connection.pending.front(), Some(Pending::Opening)) {
            connection.tell(Answer::Granted { lock, token });
        }
    }

    /// The session is here: what it holds and waits for.
    pub(crate) fn tell_here(&mut self, connection: &mut Connection, session: Session) {
        let (Some(cluster), Some(seat)) = (self.mode.in_log(), &connection.seat) else { return };
        if !matches!(connection.pending.front(), Some(Pending::Opening)) {
            return;
        }
        let key = seat.key;
        connection.pending.pop_front();
        let standing = cluster.mirror.standing(session);
        let count = standing.holds.len() + usize::from(standing.waits.is_some());
        connection.tell(format_args!("session {key} {count}"));
        for (lock, token) in standing.holds {
            connection.tell(format_args!("holds {lock} {token}"));
            self.board.kept(&lock, token, session);
        }
        if let Some(lock) = standing.waits {
            connection.tell(format_args!("waits {lock}"));
        }
        connection.tell_what_waited();
    }

    /// The session belongs to another user. The connection continues without it.
    pub(crate) fn tell_closed(&mut self, connection: &mut Connection) {
        if matches!(connection.pending.front(), Some(Pending::Opening)) {
            connection.pending.pop_front();
            connection.seat = None;
            self.sums.refused("session");
            let event = Event::SessionRefused { who: &connection.caller.who };
            self.log.say_of(&connection.caller.guest, self.now, &event);
            connection.tell("refused session");
            connection.tell_what_waited();
        }
    }

    /// The session has left.
    pub(crate) fn tell_left(&self, connection: &mut Connection) {
        if let Some(&Pending::Leaving(number)) = connection.pending.front() {
            connection.pending.pop_front();
            connection.tell_numbered(number, "left");
            connection.tell_what_waited();
        }
    }

    /// The connection is gone. A client with a key may come back, here or at another server. Returns what it held.
    pub(crate) fn end_seat(&mut self, connection: &mut Connection, end: End, is_asking: bool) -> String {
        let (Some(cluster), Some(seat)) = (self.mode.in_log_mut(), connection.seat.take()) else {
            return String::new();
        };
        let standing = cluster.standing(seat.key);
        let held = standing.held();
        let is_idle = standing == Standing::default() && !is_asking;
        let is_over = !seat.is_keyed && !matches!(end, End::Engine | End::Stop | End::Log | End::Moved);
        if is_over || matches!(end, End::Lease | End::Kicked) || seat.has_left {
            if cluster.owns.go(seat.key, connection.client) && !seat.has_left {
                cluster.put_end(seat.key, Why::Parted(end));
            }
        } else {
            let until = self.now + connection.lease.unwrap_or(self.settings.limits.longest_lease);
            let until = if is_idle { until.min(seat.is_wanted_until()) } else { until };
            cluster.owns.await_client(seat.key, connection.client, until);
        }
        some_of(&held)
    }

    /// An operator ends the session with this number, whose client is away. Returns what it held, if there is one.
    pub(crate) fn put_end_of_away(&mut self, number: Session) -> Option<String> {
        let cluster = self.mode.in_log_mut()?;
        let (key, _) = cluster.owns.away().find(|(key, _)| cluster.owns.session(*key) == Some(number))?;
        let held = some_of(&cluster.standing(key).held());
        cluster.put_end(key, Why::Parted(End::Kicked));
        cluster.owns.end_away(key);
        Some(held)
    }

    /// Sessions whose clients have not come back are over.
    pub(crate) fn end_late_sessions(&mut self) {
        let Some(cluster) = self.mode.in_log_mut() else { return };
        for key in cluster.owns.take_late(self.now) {
            let held = some_of(&cluster.standing(key).held());
            cluster.put_end(key, Why::Session);
            let session = cluster.owns.session(key).unwrap_or(0);
            self.log.say(&Event::SessionOver { session, held: if held.is_empty() { "nothing" } else { &held } });
        }
    }
}
