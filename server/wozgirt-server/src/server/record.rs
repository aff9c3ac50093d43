//! The record of grants: whose the holds are that have changed, and when answers about them may leave.

use super::people::People;
use super::Server;
use crate::alone::At;
use crate::board::{Change, News, Why};
use crate::connection::{Caller, Known};
use crate::grants::{Grants, Ticket};
use crate::mode::Mode;
use crate::shares::Guest;
use std::collections::VecDeque;
use wozgirt_engine::Client;
use wozgirt_grants::{Line, Who};

/// The clients whose answers wait for the disk, each with the block that it waits for, in the order of the blocks.
#[derive(Debug, Default)]
pub(super) struct Held(VecDeque<(Ticket, Client)>);

impl Held {
    /// Those that wait for no block after this one, which may wait for another by now.
    fn take(&mut self, done: Ticket) -> Vec<Client> {
        let count = self.0.iter().take_while(|(ticket, _)| *ticket <= done).count();
        self.0.drain(..count).map(|(_, client)| client).collect()
    }
}

impl Server {
    /// What has happened to holds becomes lines, as long as those are known whose they are.
    pub(super) fn note_news(&mut self) {
        if !self.desk.board.has_news() {
            return;
        }
        for news in self.desk.board.take_news() {
            self.note(&news);
        }
    }

    fn note(&mut self, News { lock, token, client, change }: &News) {
        let (token, is_end) = (*token, matches!(change, Change::Ended(_)));
        let Some(why) = self.why(*client, *change) else { return };
        let who = if is_end { Who::default() } else { self.holder(*client) };
        let line = match change {
            Change::Granted(label) => Line::Granted { lock, token, label: *label, who },
            Change::Kept => Line::Kept { lock, token, who },
            Change::Ended(_) => Line::Ended { lock, token, why: why.word() },
        };
        self.desk.grants.iter_mut().for_each(|grants| grants.put(&line));
    }

    /// Why a hold ended, if this server has to say so: of several, each says what concerns its own clients. A grant has a reason too.
    fn why(&self, client: Client, change: Change) -> Option<Why> {
        let Mode::InLog(cluster) = &self.desk.mode else {
            return Some(if let Change::Ended(why) = change { why } else { Why::Released });
        };
        match change {
            Change::Granted(_) | Change::Kept | Change::Ended(Why::Released) => {
                cluster.owns.has(client).then_some(Why::Released)
            }
            Change::Ended(_) => cluster.owns.end_of(client),
        }
    }

    /// The client that the engine knows by this number.
    fn holder(&mut self, client: Client) -> Who<'static> {
        let (at, guest) = match &self.desk.mode {
            Mode::Alone(alone) => match alone.session(client) {
                Some(session) => {
                    let at = if let At::Here(at) = session.at { Some(at) } else { None };
                    (at, session.guest.clone())
                }
                None => (Some(client), Guest::UNKNOWN),
            },
            Mode::InLog(cluster) => (cluster.owns.client_of(client), cluster.mirror.party(client).guest),
        };
        let who = match at.and_then(|at| self.talks.get(at)) {
            Some(connection) => present(&connection.caller, &mut self.people),
            None => absent(&guest, &mut self.people),
        };
        Who { client, ..who }
    }

    /// Writes the lines, before an answer about them leaves: the block whose answers have to wait for the disk.
    pub(super) fn write_record(&mut self) -> Option<Ticket> {
        self.note_news();
        let (now, is_stopping) = (self.desk.now, self.stopping.is_some());
        let grants = self.desk.grants.as_mut()?;
        let block = grants.write(now);
        if is_stopping {
            grants.wait(now);
        }
        let news = grants.news();
        news.iter().for_each(|news| self.desk.log.say(&news.event()));
        block
    }

    /// The client gets its answers when this block is on the disk.
    pub(super) fn hold(&mut self, client: Client, block: Ticket) {
        if let Some(connection) = self.talks.get_mut(client) {
            connection.is_dirty = false;
            connection.await_block(block);
            self.talks.held.0.push_back((block, client));
        }
    }

    /// The clients whose answers are not waited for any more.
    pub(super) fn free_again(&mut self) -> Vec<Client> {
        let Some(done) = self.desk.grants.as_ref().map(Grants::done) else { return Vec::new() };
        let mut clients = self.talks.held.take(done);
        clients.retain(|client| self.talks.get_mut(*client).is_some_and(|it| it.is_free(done)));
        clients
    }

    /// Something is on the disk.
    pub(super) fn hear_record(&mut self) {
        let now = self.desk.now;
        self.desk.grants.iter_mut().for_each(|grants| grants.hear(now));
    }

    /// Another program may have moved the file.
    pub(super) fn look_at_record(&mut self) {
        let now = self.desk.now;
        self.desk.grants.iter_mut().for_each(|grants| grants.look(now));
    }
}

/// The client of a connection.
fn present(caller: &Caller, people: &mut People) -> Who<'static> {
    let process = if let Known::Process(peer) = &caller.known { Some(peer.process) } else { None };
    let address = caller.address.map(|address| address.to_string().into());
    Who { process, address, ..absent(&caller.guest, people) }
}

/// The client of a session that is away, by the account on which that is.
fn absent(guest: &Guest, people: &mut People) -> Who<'static> {
    match guest {
        Guest::User(None) => Who::default(),
        Guest::User(Some(_)) => Who { user: Some(people.name(guest).into()), ..Who::default() },
        Guest::Address(address) => Who { address: Some(address.to_string().into()), ..Who::default() },
        Guest::Certificate(name) => Who { certificate: Some(name.text().into()), ..Who::default() },
    }
}

#[cfg(test)]
mod tests {
    use super::*;
    use crate::desk::tests::connection;
    use std::time::Instant;

    #[test]
    fn who_waits_for_a_later_block_stays() {
        let mut held = Held([(1, 7), (1, 8), (2, 7), (4, 9)].into());
        assert_eq!((held.take(0), held.take(1), held.take(3), held.take(3)), (vec![], vec![7, 8], vec![7], vec![]));
        assert_eq!(held.take(9), [9]);
        let (mut it, _other) = connection(b"", Instant::now());
        it.await_block(2);
        assert!(!it.is_free(1) && it.is_free(2) && it.is_free(0));
    }
}
