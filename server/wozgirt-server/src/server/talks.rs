//! What is asked: the connections, whose turn it is, and what is written to them.

use super::record::Held;
use super::{Server, CONNECTIONS, ENGINE_INPUT, LONGEST_TURN, SHORTEST_TURN, TURNS};
use crate::connection::{Connection, Door, Reading, SHARE};
use crate::desk::Then;
use crate::log::End;
use crate::turns::Turn;
use crate::CannotServe;
use std::collections::{HashMap, VecDeque};
use std::mem;
use std::time::Instant;
use wozgirt_engine::{Answer, Client};
use wozgirt_system::Event as Ready;

/// The connections.
#[derive(Default)]
pub(super) struct Talks {
    connections: HashMap<Client, Connection>,
    /// Those that get something at the end of this round.
    dirty: Vec<Client>,
    /// Those who wait for a change of the locks.
    watchers: Vec<Client>,
    /// Those that have just spoken, and those that have said more than was taken in their turn.
    fresh: VecDeque<Client>,
    backlog: VecDeque<Client>,
    /// Those whose answers wait for the record of grants.
    pub(super) held: Held,
    /// Whether clients were not heard in the last round, since the engine has enough to do.
    was_full: bool,
}

impl Talks {
    /// How many there are.
    pub(super) fn count(&self) -> usize {
        self.connections.len()
    }

    /// The connection of this client.
    pub(super) fn get(&self, client: Client) -> Option<&Connection> {
        self.connections.get(&client)
    }

    /// The same, to be changed.
    pub(super) fn get_mut(&mut self, client: Client) -> Option<&mut Connection> {
        self.connections.get_mut(&client)
    }

    /// All of them.
    pub(super) fn all(&self) -> impl Iterator<Item = &Connection> {
        self.connections.values()
    }

    /// The same, to be changed.
    pub(super) fn all_mut(&mut self) -> impl Iterator<Item = &mut Connection> {
        self.connections.values_mut()
    }

    /// Their clients.
    pub(super) fn clients(&self) -> Vec<Client> {
        self.connections.keys().copied().collect()
    }

    /// One more.
    pub(super) fn insert(&mut self, connection: Connection) {
        self.connections.insert(connection.client, connection);
    }

    /// One less.
    fn remove(&mut self, client: Client) -> Option<Connection> {
        self.connections.remove(&client)
    }

    /// Something is to be written to it.
    pub(super) fn touch(&mut self, client: Client) {
        if let Some(connection) = self.connections.get_mut(&client) {
            if !mem::replace(&mut connection.is_dirty, true) {
                self.dirty.push(client);
            }
        }
    }

    /// Something is to be written to each.
    pub(super) fn touch_all(&mut self) {
        self.clients().into_iter().for_each(|client| self.touch(client));
    }

    /// Whether lines of some are to be taken.
    pub(super) fn has_turns(&self) -> bool {
        !self.fresh.is_empty() || self.has_backlog()
    }

    /// Whether some have said more than was taken.
    pub(super) fn has_backlog(&self) -> bool {
        !self.backlog.is_empty()
    }

    /// It gets a line when the locks change.
    fn watch(&mut self, client: Client) {
        self.watchers.push(client);
    }

    /// Reports to each who waits for that, once, that the locks have changed.
    fn tell_changes(&mut self, changes: u64) {
        for client in mem::take(&mut self.watchers) {
            let Some(connection) = self.connections.get_mut(&client) else { continue };
            match connection.awaits_change_of {
                Some(seen) if seen == changes => self.watchers.push(client),
                Some(_) => {
                    connection.awaits_change_of = None;
                    connection.tell_in_order(format_args!("changes {changes}"));
                    self.touch(client);
                }
                None => {}
            }
        }
    }
}

impl Server {
    pub(super) fn read(&mut self, client: Client, event: &Ready, buffer: &mut [u8; SHARE]) {
        self.talks.touch(client);
        let Some(connection) = self.talks.get(client) else { return };
        let is_open = connection.takes_more() && !connection.is_read_enough();
        // of a client that is gone nothing more is read: nobody hears the answers, and all that it would hold is free
        let is_of_use = !event.is_gone || connection.caller.is_operator();
        let is_read = event.is_readable && is_open && is_of_use && self.hears(connection.caller.door);
        let now = self.desk.now;
        let Some(connection) = self.talks.get_mut(client).filter(|_| is_read) else {
            return if event.is_gone {
                self.lose(client, buffer)
            };
        };
        match connection.read(buffer, now) {
            Ok(Reading::Open) => {
                if self.has_turn(client) {
                    self.talks.fresh.push_back(client);
                }
            }
            Ok(Reading::Ended) if !event.is_gone => connection.note_said_all(),
            Ok(Reading::Ended) | Err(_) => self.lose(client, buffer),
        }
    }

    /// The other end is gone. What it has said for a session that continues is done as soon as it may be asked.
    pub(super) fn lose(&mut self, client: Client, buffer: &mut [u8; SHARE]) {
        let Some(connection) = self.talks.get_mut(client) else { return };
        let stays = connection.may_be_left() && self.stopping.is_none() && connection.note_gone(buffer);
        if stays && self.poller.remove(connection.stream()).is_ok() {
            self.queue(client);
        } else {
            self.part(client, End::Closed);
        }
    }

    /// Whether anything is read of connections of this door.
    fn hears(&self, door: Door) -> bool {
        let has_room = door == Door::Operators || !self.desk.is_full;
        self.is_engine_ready() && self.stopping.is_none() && has_room
    }

    fn take_lines(&mut self, client: Client, until: Instant) {
        let Some(door) = self.talks.get(client).map(|connection| connection.caller.door) else { return };
        let hears = self.hears(door);
        let Some(connection) = self.talks.get_mut(client) else { return };
        let mut then = Then::Wait;
        loop {
            self.desk.tell_listing(connection, until);
            if hears {
                then = self.desk.take_lines(connection, until);
            }
            if then != Then::Wait || !connection.is_listing() || Instant::now() >= until {
                break;
            }
        }
        match then {
            Then::Wait => {}
            Then::End(end) => connection.ending = Some(end),
            Then::Watch => self.talks.watch(client),
            Then::Moved(before) => self.part(before, End::Moved),
            Then::Operator(order) => self.obey(client, order),
        }
        self.note_deadline(client);
        self.queue(client);
        self.talks.touch(client);
    }

    /// Has the connection's turn come again, if it has more lines that may be taken, or more is to be sent to it.
    pub(super) fn queue(&mut self, client: Client) {
        if self.has_turn(client) {
            self.talks.backlog.push_back(client);
        }
    }

    /// The connection got an answer, and may say more.
    pub(super) fn go_on(&mut self, client: Client) {
        self.queue(client);
        self.talks.touch(client);
    }

    /// Whether the connection gets a turn that it did not have yet.
    fn has_turn(&mut self, client: Client) -> bool {
        let is_ready = self.is_engine_ready() && self.stopping.is_none();
        let Some(connection) = self.talks.get_mut(client).filter(|it| !it.asking.is_queued) else { return false };
        let hears = is_ready && (connection.caller.is_operator() || !self.desk.is_full);
        connection.asking.is_queued = connection.is_listing() || hears && self.desk.has_work(connection);
        connection.asking.is_queued
    }

    /// Takes lines of connections that have just spoken, and of those that waited until the engine had done enough; each time for a while.
    pub(super) fn take_turns(&mut self) {
        let fresh = mem::take(&mut self.talks.fresh);
        self.talks.fresh = self.take_some(fresh);
        self.take_next();
    }

    /// Takes lines of connections that have said more.
    pub(super) fn take_backlog(&mut self) {
        let backlog = mem::take(&mut self.talks.backlog);
        let mut rest = self.take_some(backlog);
        rest.append(&mut self.talks.backlog);
        self.talks.backlog = rest;
    }

    fn take_next(&mut self) {
        let until = Instant::now() + TURNS;
        while let Some((client, turn)) = self.desk.next_turn(self.stopping.is_some()) {
            if let Turn::Gone(last) = turn {
                self.desk.ask_to_forget(client, last);
            } else if let Some(connection) = self.talks.get_mut(client) {
                connection.asking.place = None;
                self.take_lines(client, until);
            }
            if Instant::now() >= until {
                return;
            }
        }
    }

    /// Those that had no turn.
    fn take_some(&mut self, mut line: VecDeque<Client>) -> VecDeque<Client> {
        if line.is_empty() {
            return line;
        }
        let turn = TURNS / u32::try_from(line.len()).unwrap_or(u32::MAX);
        let turn = turn.clamp(SHORTEST_TURN, LONGEST_TURN);
        let begun = Instant::now();
        let mut now = begun;
        while now < begun + TURNS {
            let Some(client) = line.pop_front() else { break };
            if let Some(connection) = self.talks.get_mut(client) {
                connection.asking.is_queued = false;
                self.take_lines(client, now + turn);
            }
            now = Instant::now();
        }
        line
    }

    /// Whether the log has got too much, or has done enough: then no client is heard, or all are again.
    fn note_full(&mut self) {
        if self.desk.is_free_again() {
            self.desk.is_full = false;
        }
        let keeps_out = self.desk.keeps_out(self.entrance.keeps_out());
        self.entrance.keep_out(keeps_out, &self.poller);
        if mem::replace(&mut self.talks.was_full, self.desk.is_full) != self.desk.is_full {
            self.talks.clients().into_iter().for_each(|client| self.go_on(client));
        }
    }

    pub(super) fn part(&mut self, client: Client, end: End) {
        self.note_news(); // as long as it is there
        if let Some(mut connection) = self.talks.remove(client) {
            self.entrance.give_back(connection.caller.door, &connection.caller.guest);
            for (operator, lock, token) in connection.ended() {
                // it leaves all
                self.tell_ended(operator, client, &lock, token, &Answer::Released { lock: &lock });
            }
            self.desk.part(&mut connection, end);
        }
    }

    pub(super) fn part_all(&mut self, end: End) {
        self.talks.clients().into_iter().for_each(|client| self.part(client, end));
    }

    pub(super) fn write_all(&mut self, buffer: &mut [u8; SHARE]) -> Result<(), CannotServe> {
        self.note_full();
        self.write_sessions();
        let block = self.write_record();
        self.talks.tell_changes(self.desk.board.changes());
        // it works while the clients get their answers
        self.desk.engine.write();
        // mostly the last one was granted what the one before it gave back: others wait for that
        for client in mem::take(&mut self.talks.dirty).into_iter().rev() {
            match block {
                Some(block) => self.hold(client, block),
                None => self.write(client, buffer),
            }
        }
        for client in self.free_again() {
            self.write(client, buffer);
        }
        self.desk.engine.write(); // those who have left
        if let Some((input, interest)) = self.desk.engine.awaited_input() {
            self.poller.change(input, ENGINE_INPUT, interest)?;
        }
        self.write_log()
    }

    fn write(&mut self, client: Client, buffer: &mut [u8; SHARE]) {
        let Some(connection) = self.talks.get_mut(client) else { return };
        connection.is_dirty = false;
        if connection.write(self.desk.now).is_err() {
            return self.lose(client, buffer);
        }
        if let Some(end) = connection.is_over() {
            connection.drain(buffer);
            return self.part(client, end);
        }
        if connection.is_stuck() {
            self.note_deadline(client);
        }
        self.queue(client); // it may say more, since it has read what was sent
        let hears = self.talks.get(client).is_some_and(|connection| self.hears(connection.caller.door));
        let Some(connection) = self.talks.get_mut(client) else { return };
        if let Some(interest) = connection.new_interest(hears) {
            let changed = self.poller.change(connection.stream(), CONNECTIONS + client, interest);
            if changed.is_err() {
                self.part(client, End::Closed);
            }
        }
    }
}

#[cfg(test)]
mod tests {
    use super::*;
    use crate::desk::tests::connection;

    /// Connections of these clients, whose other ends are kept.
    fn talks(clients: &[Client]) -> (Talks, Vec<impl Sized>) {
        let (mut talks, mut others) = (Talks::default(), Vec::new());
        for &client in clients {
            let (mut it, other) = connection(b"", Instant::now());
            it.client = client;
            talks.insert(it);
            others.push(other);
        }
        (talks, others)
    }

    #[test]
    fn each_is_written_to_once_a_round() {
        let (mut talks, _others) = talks(&[1, 2]);
        [2, 1, 2, 7].into_iter().for_each(|client| talks.touch(client));
        assert_eq!(mem::take(&mut talks.dirty), [2, 1]);
        talks.get_mut(1).unwrap().is_dirty = false;
        talks.touch_all();
        assert_eq!(talks.dirty, [1]); // the other one is to be written to already
        assert!(talks.remove(1).is_some() && talks.remove(1).is_none() && talks.count() == 1);
    }

    #[test]
    fn who_watches_is_told_of_the_next_change_once() {
        let (mut talks, _others) = talks(&[1, 2]);
        for client in [1, 2] {
            talks.get_mut(client).unwrap().awaits_change_of = Some(4 + client);
            talks.watch(client);
        }
        talks.watch(7); // is gone
        talks.tell_changes(5);
        assert_eq!((&*talks.watchers, &*talks.dirty), (&[1][..], &[2][..]));
        talks.tell_changes(6);
        assert_eq!((talks.watchers.len(), &*talks.dirty), (0, &[2, 1][..]));
        talks.tell_changes(7);
        assert_eq!(talks.dirty.len(), 2);
    }

    #[test]
    fn whose_turn_it_is() {
        let (mut talks, _others) = talks(&[]);
        assert!(!talks.has_turns());
        talks.fresh.push_back(1);
        assert!(talks.has_turns() && !talks.has_backlog());
        talks.backlog.push_back(1);
        assert!(talks.has_backlog());
    }
}
