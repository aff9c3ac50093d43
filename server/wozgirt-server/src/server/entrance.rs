//! Arrivals: the sockets that are listened to, and the places for clients that come.

use super::{Server, CLIENTS, CONNECTIONS, MOST_COMERS, NETWORK, OPERATORS, PAGE, PROXIED, TURNS};
use crate::accounts::Accounts;
use crate::connection::{Caller, Connection, Door, SHARE};
use crate::doors::{open_tcp, UnixDoor};
use crate::log::{Event, Log};
use crate::places::Places;
use crate::settings::Settings;
use crate::shares::Guest;
use crate::stream::Stream;
use crate::CannotServe;
use std::io;
use std::net::{SocketAddr, TcpListener};
use std::time::{Duration, Instant};
use wozgirt_engine::Client;
use wozgirt_system::{Interest, Poller};

/// How long a door is shut when the system has no place for a connection.
const SHUT: Duration = Duration::from_millis(50);

/// Whether somebody comes in there, but to the page.
pub(super) fn is_door(key: u64) -> bool {
    door_of(key).is_some()
}

fn door_of(key: u64) -> Option<Door> {
    match key {
        CLIENTS => Some(Door::Clients),
        OPERATORS => Some(Door::Operators),
        NETWORK => Some(Door::Network),
        PROXIED => Some(Door::Proxied),
        _ => None,
    }
}

/// The sockets that are listened to.
#[derive(Default)]
struct Doors {
    clients: Option<UnixDoor>,
    operators: Option<UnixDoor>,
    proxied: Option<UnixDoor>,
    tcp: Option<TcpListener>,
    page: Option<TcpListener>,
}

impl Doors {
    fn open(settings: &Settings, poller: &Poller, log: &mut Log) -> Result<Doors, CannotServe> {
        let mut accounts = Accounts::default();
        let clients = UnixDoor::open(&settings.sockets.clients, &mut accounts)?;
        poller.add(&clients.listener, CLIENTS, Interest::READS)?;
        log.say(&Event::Listening { what: "clients", place: &settings.sockets.clients.path.display() });
        let mut doors = Doors { clients: Some(clients), ..Doors::default() };
        let others = [
            ("operators", &settings.sockets.operators, OPERATORS),
            ("clients of a proxy", &settings.sockets.proxied, PROXIED),
        ];
        for (what, named, key) in others {
            let Some(named) = named else { continue };
            let door = UnixDoor::open(named, &mut accounts)?;
            poller.add(&door.listener, key, Interest::READS)?;
            log.say(&Event::Listening { what, place: &named.path.display() });
            *(if key == OPERATORS { &mut doors.operators } else { &mut doors.proxied }) = Some(door);
        }
        for (what, address, key) in [("clients", settings.sockets.tcp, NETWORK), ("page", settings.sockets.page, PAGE)]
        {
            let Some(address) = address else { continue };
            let listener = open_tcp(address)?;
            poller.add(&listener, key, Interest::READS)?;
            let place = listener.local_addr()?;
            log.say(&Event::Listening { what, place: &place });
            if key == NETWORK && !place.ip().is_loopback() {
                log.say(&Event::ClientsUnknown { place: &place });
            }
            *(if key == NETWORK { &mut doors.tcp } else { &mut doors.page }) = Some(listener);
        }
        Ok(doors)
    }

    fn accept(&self, key: u64) -> io::Result<Option<(Stream, Option<SocketAddr>)>> {
        let unix = |door: &Option<UnixDoor>| {
            let Some(door) = door else { return Ok(None) };
            door.listener.accept().and_then(|(stream, _)| Ok(Some((Stream::unix(stream)?, None))))
        };
        match key {
            CLIENTS => unix(&self.clients),
            OPERATORS => unix(&self.operators),
            PROXIED => unix(&self.proxied),
            _ => match if key == NETWORK { &self.tcp } else { &self.page } {
                None => Ok(None),
                Some(listener) => {
                    listener.accept().and_then(|(stream, from)| Ok(Some((Stream::tcp(stream)?, Some(from)))))
                }
            },
        }
    }

    /// Has each of them waited for as `interest` says of its key.
    fn wait_for(&self, poller: &Poller, interest: impl Fn(u64) -> Interest) {
        let unix = [(&self.clients, CLIENTS), (&self.operators, OPERATORS), (&self.proxied, PROXIED)];
        for (door, key) in unix.into_iter().filter_map(|(door, key)| Some((door.as_ref()?, key))) {
            let _ = poller.change(&door.listener, key, interest(key)); // it was added, and is open
        }
        let tcp = [(&self.tcp, NETWORK), (&self.page, PAGE)];
        for (door, key) in tcp.into_iter().filter_map(|(door, key)| Some((door.as_ref()?, key))) {
            let _ = poller.change(door, key, interest(key)); // the same
        }
    }
}

/// The doors, when they are shut, and who has a place.
pub(super) struct Entrance {
    doors: Doors,
    places: Places,
    /// How much a connection may leave unread.
    most_unread: usize,
    /// Until when doors are shut, since the system has no place; and whether clients' are, since the engine has enough to do.
    shut_until: Option<Instant>,
    keeps_out: bool,
}

impl Entrance {
    /// Listens. Each connection may leave `most_unread` bytes unread.
    pub(super) fn open(
        settings: &Settings,
        most_unread: usize,
        poller: &Poller,
        log: &mut Log,
    ) -> Result<Entrance, CannotServe> {
        let (doors, places) = (Doors::open(settings, poller, log)?, Places::new(settings.limits.connections));
        Ok(Entrance { doors, places, most_unread, shut_until: None, keeps_out: false })
    }

    /// From now on nobody comes.
    pub(super) fn close(&mut self) {
        self.doors = Doors::default();
    }

    /// The client that comes in at this door, and its address, if one does.
    pub(super) fn accept(&self, key: u64) -> io::Result<Option<(Stream, Option<SocketAddr>)>> {
        match self.doors.accept(key) {
            Err(fault) if matches!(fault.kind(), io::ErrorKind::WouldBlock | io::ErrorKind::ConnectionAborted) => {
                Ok(None)
            }
            other => other,
        }
    }

    /// A new connection.
    pub(super) fn connection(&self, client: Client, caller: Caller, stream: Stream, now: Instant) -> Connection {
        Connection::new(client, caller, stream, self.most_unread, now)
    }

    /// Takes a place, if there is one for this guest.
    fn take(&mut self, door: Door, guest: &Guest) -> bool {
        self.places.take(door, guest)
    }

    /// Gives back a place that was taken.
    pub(super) fn give_back(&mut self, door: Door, guest: &Guest) {
        self.places.give_back(door, guest);
    }

    /// The system has no place for one more: others have to close first, and the door would report it without an end.
    fn shut(&mut self, poller: &Poller, now: Instant) {
        self.shut_until = Some(now + SHUT);
        self.set(poller);
    }

    /// When doors that are shut are to be opened.
    pub(super) fn opens(&self) -> Option<Instant> {
        self.shut_until
    }

    /// Opens doors that were shut until now.
    pub(super) fn open_again(&mut self, poller: &Poller, now: Instant) {
        if self.shut_until.is_some_and(|until| until <= now) {
            self.shut_until = None;
            self.set(poller);
        }
    }

    /// Whether no client is let in, since the engine has enough to do.
    pub(super) fn keeps_out(&self) -> bool {
        self.keeps_out
    }

    /// From now on clients are kept out, or let in again.
    pub(super) fn keep_out(&mut self, keeps_out: bool, poller: &Poller) {
        if std::mem::replace(&mut self.keeps_out, keeps_out) != keeps_out {
            self.set(poller);
        }
    }

    /// Whether somebody may come in at this door now.
    fn is_open(&self, key: u64) -> bool {
        let is_of_clients = matches!(door_of(key), Some(Door::Clients | Door::Network | Door::Proxied));
        self.shut_until.is_none() && !(is_of_clients && self.keeps_out)
    }

    /// Has those doors listened to at which somebody may come in now.
    fn set(&self, poller: &Poller) {
        self.doors.wait_for(poller, |key| Interest { reads: self.is_open(key), writes: false });
    }
}

impl Server {
    pub(super) fn let_in(&mut self, key: u64, buffer: &mut [u8; SHARE]) {
        let Some(door) = door_of(key) else { return };
        let until = Instant::now() + TURNS;
        for _ in 0..MOST_COMERS {
            let (stream, from) = match self.entrance.accept(key) {
                Ok(Some(come)) => come,
                Ok(None) => return,
                Err(fault) => return self.shut_doors(&fault),
            };
            if door == Door::Proxied {
                self.meet(stream, buffer);
            } else {
                let caller = self.people.caller(door, &stream, from);
                let client = self.desk.mode.next_client();
                let mut connection = self.entrance.connection(client, caller, stream, self.desk.now);
                connection.lease = self.desk.first_lease(door);
                self.welcome(connection);
            }
            if Instant::now() >= until {
                return;
            }
        }
    }

    pub(super) fn welcome(&mut self, mut connection: Connection) {
        let (door, guest) = (connection.caller.door, connection.caller.guest.clone());
        if self.stopping.is_some() || !self.entrance.take(door, &guest) {
            connection.tell("refused connections");
            let _ = connection.write(self.desk.now); // it gets that if it takes it at once
            self.desk.sums.turned_away += 1;
            self.desk.log.say_of(&guest, self.desk.now, &Event::TooMany { who: &connection.caller.who });
            return;
        }
        let client = connection.client;
        connection.asking.tag = self.desk.questions.turns.newcomer();
        if self.poller.add(connection.stream(), CONNECTIONS + client, Interest::READS).is_err() {
            return self.entrance.give_back(door, &guest); // no memory: the connection is closed
        }
        self.desk.sums.connections += 1;
        if self.desk.settings.logs_connections && !connection.caller.is_proxy() {
            self.desk.log.say(&Event::Came { client, who: &connection.caller.who });
        }
        self.talks.insert(connection);
        self.note_deadline(client);
        self.talks.touch(client);
    }

    /// The system has no place for one more.
    pub(super) fn shut_doors(&mut self, fault: &io::Error) {
        self.desk.log.say(&Event::CannotAccept { fault });
        self.entrance.shut(&self.poller, self.desk.now);
    }
}

#[cfg(test)]
mod tests {
    use super::*;

    fn entrance() -> Entrance {
        let (doors, places) = (Doors::default(), Places::new(1));
        Entrance { doors, places, most_unread: 1, shut_until: None, keeps_out: false }
    }

    fn open(entrance: &Entrance) -> [bool; 5] {
        [CLIENTS, OPERATORS, NETWORK, PROXIED, PAGE].map(|key| entrance.is_open(key))
    }

    #[test]
    fn without_a_place_of_the_system_all_doors_are_shut_for_a_while() {
        let (mut entrance, poller, now) = (entrance(), Poller::new().unwrap(), Instant::now());
        assert_eq!((open(&entrance), entrance.opens()), ([true; 5], None));
        entrance.shut(&poller, now);
        entrance.open_again(&poller, now + SHUT / 2);
        assert_eq!((open(&entrance), entrance.opens()), ([false; 5], Some(now + SHUT)));
        entrance.open_again(&poller, now + SHUT);
        assert_eq!((open(&entrance), entrance.opens()), ([true; 5], None));
    }

    #[test]
    fn operators_and_visitors_come_in_when_clients_are_kept_out() {
        let (mut entrance, poller) = (entrance(), Poller::new().unwrap());
        entrance.keep_out(true, &poller);
        assert_eq!((open(&entrance), entrance.keeps_out()), ([false, true, false, false, true], true));
        entrance.keep_out(false, &poller);
        assert_eq!(open(&entrance), [true; 5]);
    }

    #[test]
    fn each_door_has_a_key() {
        assert!(
            [CLIENTS, OPERATORS, NETWORK, PROXIED].into_iter().all(is_door) && !is_door(PAGE) && !is_door(CONNECTIONS)
        );
    }
}
