//! Identities: what the system, or a proxy, knows of clients that come, and of those that the rules name.

use super::opening::{read_file, read_rules};
use super::Server;
use crate::accounts::{Accounts, UserNames};
use crate::board::Board;
use crate::cluster::Who;
use crate::connection::{Caller, Door, Known};
use crate::header::Header;
use crate::log::Event;
use crate::rules::Rules;
use crate::settings::Settings;
use crate::shares::Guest;
use crate::stream::Stream;
use crate::CannotServe;
use std::io;
use std::net::{IpAddr, SocketAddr};
use std::rc::Rc;
use std::sync::mpsc::Receiver;
use wozgirt_system::peer_of;

/// What is known of names.
pub(super) struct People {
    accounts: Accounts,
    names: UserNames,
    /// What the system will have answered about the names in the rules, which are then read again.
    aside: Option<Receiver<Accounts>>,
}

impl People {
    /// Nobody is known.
    pub(super) fn start() -> io::Result<People> {
        Ok(People { accounts: Accounts::default(), names: UserNames::start()?, aside: None })
    }

    /// The client that has come in at this door, from this address if it is not a Unix socket.
    pub(super) fn caller(&mut self, door: Door, stream: &Stream, from: Option<SocketAddr>) -> Caller {
        if let Some(from) = from.map(short) {
            let (identity, guest) = (Who::at(from.ip()), Guest::at(from.ip()));
            return Caller { door, known: Known::Nobody, address: Some(from), identity, guest, who: from.to_string() };
        }
        let Ok(peer) = peer_of(stream) else {
            let (identity, guest) = (Who::Unknown, Guest::UNKNOWN);
            return Caller {
                door,
                known: Known::Nobody,
                address: None,
                identity,
                guest,
                who: "nobody knows who".into(),
            };
        };
        let who = format!("{}, process {}", self.names.name(peer.user), peer.process);
        let (identity, guest) = (Who::User(peer.user), Guest::User(Some(peer.user)));
        Caller { door, known: Known::Process(peer), address: None, identity, guest, who }
    }

    /// The client that this header is about, or the proxy itself.
    pub(super) fn caller_of_proxy(&mut self, stream: &Stream, header: Header) -> Caller {
        let door = Door::Proxied;
        match header {
            Header::Local => self.caller(door, stream, None),
            Header::Client { address, name: Some(name) } => {
                let address = address.map(short);
                let from = address.map_or("from somewhere".into(), |address| address.to_string());
                let who = format!("cert:{name}, {from}");
                let (identity, guest) = (Who::Certificate(name.clone()), Guest::Certificate(name.clone()));
                Caller { door, known: Known::Certificate(name), address, identity, guest, who }
            }
            Header::Client { address: Some(address), name: None } => self.caller(door, stream, Some(address)),
            Header::Client { address: None, name: None } => {
                let (identity, guest) = (Who::Unknown, Guest::UNKNOWN);
                Caller { door, known: Known::Nobody, address: None, identity, guest, who: "nobody knows who".into() }
            }
        }
    }

    /// The name of a client that is away, by the account on which its session is.
    pub(super) fn name(&mut self, guest: &Guest) -> String {
        match guest {
            Guest::User(Some(user)) => self.names.name(*user),
            Guest::User(None) => "nobody knows who".into(),
            Guest::Address(address) => address.to_string(),
            Guest::Certificate(name) => format!("cert:{name}"),
        }
    }

    /// Has the system asked anew about the names in this text of rules.
    fn ask_again(&mut self, text: String) -> io::Result<()> {
        self.aside = Some(Accounts::of_rules_aside(text)?);
        Ok(())
    }

    /// Whether the system is being asked.
    pub(super) fn is_asking(&self) -> bool {
        self.aside.is_some()
    }

    /// Whether it has answered, once.
    fn take_answers(&mut self) -> bool {
        let Some(Ok(accounts)) = self.aside.as_ref().map(Receiver::try_recv) else { return false };
        (self.accounts, self.aside) = (accounts, None);
        true
    }

    /// The rules, for the locks of this board.
    pub(super) fn read_rules(&mut self, settings: &Settings, board: &Board) -> Result<Rules, CannotServe> {
        read_rules(settings, board, &mut self.accounts)
    }
}

impl Server {
    /// The rules are read again as soon as the system has answered about the names in them.
    pub(super) fn read_rules_again(&mut self) {
        self.people.names.forget();
        let Some(path) = &self.desk.settings.rules else { return };
        let text = read_file(path).unwrap_or_default(); // if it cannot be read, that is said then
        if let Err(fault) = self.people.ask_again(text) {
            self.desk.log.say(&Event::RulesBad { fault: &fault });
        }
        self.leases.look_at(self.desk.now);
    }

    /// Rules hold for what is asked from now on, and for who waits. If they are wrong, the old ones stay in force.
    pub(super) fn take_rules(&mut self) {
        if !self.people.take_answers() {
            return;
        }
        match self.people.read_rules(&self.desk.settings, &self.desk.board) {
            Ok(rules) => {
                rules.unknown().iter().for_each(|who| self.desk.log.say(&Event::RulesUnknown { who }));
                self.desk.rules = Rc::new(rules);
                self.desk.log.say(&Event::RulesRead);
                self.talks.all_mut().for_each(|connection| self.desk.withdraw(connection));
            }
            Err(fault) => self.desk.log.say(&Event::RulesBad { fault: &fault }),
        }
    }
}

/// An address of IPv4 as such, also where a socket for both versions has it as one of IPv6.
fn short(address: SocketAddr) -> SocketAddr {
    let IpAddr::V6(long) = address.ip() else { return address };
    long.to_ipv4_mapped().map_or(address, |it| SocketAddr::new(it.into(), address.port()))
}

#[cfg(test)]
mod tests {
    use super::*;
    use crate::certificate_name::CertificateName;
    use std::os::unix::net::UnixStream;
    use std::time::{Duration, Instant};

    #[test]
    fn who_comes() {
        let mut people = People::start().unwrap();
        let (one, _other) = UnixStream::pair().unwrap();
        let stream = Stream::unix(one).unwrap();
        let here = people.caller(Door::Operators, &stream, None);
        let Known::Process(peer) = &here.known else { panic!() };
        assert_eq!((&here.identity, &here.guest), (&Who::User(peer.user), &Guest::User(Some(peer.user))));
        assert!(here.who.ends_with(&format!(", process {}", std::process::id())) && here.is_operator());
        let far = people.caller(Door::Network, &stream, Some("127.0.0.9:70".parse().unwrap()));
        let address = "127.0.0.9".parse().unwrap();
        assert_eq!((far.identity, far.guest), (Who::Address(address), Guest::at(address)));
        assert_eq!((far.who.as_str(), far.known, far.door), ("127.0.0.9:70", Known::Nobody, Door::Network));
    }

    #[test]
    fn an_address_has_one_form() {
        let mut people = People::start().unwrap();
        let (one, _other) = UnixStream::pair().unwrap();
        let stream = Stream::unix(one).unwrap();
        for (given, shown) in [("[::ffff:10.0.0.7]:70", "10.0.0.7:70"), ("[fe00::7]:70", "[fe00::7]:70")] {
            let (given, name) = (given.parse().unwrap(), CertificateName::new(b"a").unwrap());
            let header = |name| Header::Client { address: Some(given), name };
            let named = people.caller_of_proxy(&stream, header(Some(name)));
            let plain = people.caller_of_proxy(&stream, header(None));
            assert_eq!((named.address, plain.address), (shown.parse().ok(), shown.parse().ok()));
            assert_eq!((named.who, plain.who.as_str()), (format!("cert:a, {shown}"), shown));
        }
    }

    #[test]
    fn who_comes_by_a_proxy() {
        let mut people = People::start().unwrap();
        let (one, _other) = UnixStream::pair().unwrap();
        let stream = Stream::unix(one).unwrap();
        let (address, name) = ("10.0.0.7:70".parse().unwrap(), CertificateName::new(b"a b").unwrap());
        let named = Header::Client { address: Some(address), name: Some(name.clone()) };
        let it = people.caller_of_proxy(&stream, named);
        assert_eq!((it.identity, it.guest), (Who::Certificate(name.clone()), Guest::Certificate(name.clone())));
        assert_eq!(
            (it.who.as_str(), it.known, it.door),
            ("cert:a%20b, 10.0.0.7:70", Known::Certificate(name), Door::Proxied)
        );
        let it = people.caller_of_proxy(&stream, Header::Client { address: Some(address), name: None });
        assert_eq!((&it.identity, &it.guest), (&Who::at(address.ip()), &Guest::at(address.ip())));
        assert_eq!((it.who.as_str(), &it.known, it.is_proxy()), ("10.0.0.7:70", &Known::Nobody, false));
        let it = people.caller_of_proxy(&stream, Header::Client { address: None, name: None });
        assert_eq!((it.identity, it.guest, it.known), (Who::Unknown, Guest::UNKNOWN, Known::Nobody));
        let it = people.caller_of_proxy(&stream, Header::Local);
        assert!(it.is_proxy() && matches!(it.identity, Who::User(_)) && it.who.contains(", process "));
    }

    #[test]
    fn who_is_away() {
        let mut people = People::start().unwrap();
        let name = CertificateName::new("René".as_bytes()).unwrap();
        let address = Guest::Address([10, 0, 0, 1].into());
        let names = [Guest::User(Some(4_000_000_000)), Guest::UNKNOWN, address, Guest::Certificate(name)];
        assert_eq!(
            names.map(|guest| people.name(&guest)),
            ["4000000000", "nobody knows who", "10.0.0.1", "cert:Ren%C3%A9"]
        );
    }

    #[test]
    fn the_system_answers_once() {
        let mut people = People::start().unwrap();
        assert!(!people.is_asking() && !people.take_answers());
        people.ask_again("lock a: root".into()).unwrap();
        let until = Instant::now() + Duration::from_secs(60);
        while !people.take_answers() {
            assert!(people.is_asking() && Instant::now() < until);
            std::thread::yield_now();
        }
        assert!(!people.is_asking() && !people.take_answers());
        assert_eq!(people.accounts.user("root"), Some(0));
    }
}
