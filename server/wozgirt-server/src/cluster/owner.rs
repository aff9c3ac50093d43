//! Whose a session is: nobody else's who knows its key.
//!
//! On a Unix socket a client is a user, and over TCP an address. A session is the user's who came first on a socket, and the address's that
//! came first over TCP: its client may go from the socket of its own host to the other servers. One that began with a certificate is that
//! certificate's and nobody else's, and no other is a certificate's.

use crate::certificate_name::CertificateName;
use crate::shares::Guest;
use std::fmt;
use std::net::IpAddr;
use std::str::FromStr;
use wozgirt_engine::{decimal, NotALine};

/// The client at the other end of a connection.
#[derive(Debug, Clone, PartialEq, Eq)]
pub enum Who {
    /// A user of this machine, by its number.
    User(u32),
    /// Somebody at this address.
    Address(IpAddr),
    /// Whoever has a certificate of this name.
    Certificate(CertificateName),
    /// The system does not say.
    Unknown,
}

impl Who {
    /// This address; one of IPv4 is the same in an IPv6 address.
    pub fn at(address: IpAddr) -> Who {
        let plain = match address {
            IpAddr::V6(long) => long.to_ipv4_mapped().map_or(address, IpAddr::V4),
            IpAddr::V4(_) => address,
        };
        Who::Address(plain)
    }
}

impl fmt::Display for Who {
    fn fmt(&self, f: &mut fmt::Formatter<'_>) -> fmt::Result {
        match self {
            Who::User(user) => write!(f, "u{user}"),
            Who::Address(address) => write!(f, "a{address}"),
            Who::Certificate(name) => write!(f, "c{name}"),
            Who::Unknown => f.write_str("-"),
        }
    }
}

impl FromStr for Who {
    type Err = NotALine;

    fn from_str(word: &str) -> Result<Who, NotALine> {
        if word == "-" {
            return Ok(Who::Unknown);
        }
        if let Some(user) = word.strip_prefix('u') {
            return decimal(user)?.try_into().map(Who::User).map_err(|_| NotALine::Number);
        }
        if let Some(name) = word.strip_prefix('c') {
            return CertificateName::parse(name).map(Who::Certificate).map_err(|_| NotALine::Syntax);
        }
        let address = word.strip_prefix('a').and_then(|address| address.parse().ok());
        address.map(Who::Address).ok_or(NotALine::Syntax)
    }
}

/// Whose a session is.
#[derive(Debug, Clone, Default, PartialEq, Eq)]
pub struct Owner {
    user: Option<u32>,
    address: Option<IpAddr>,
    certificate: Option<CertificateName>,
}

impl Owner {
    /// Whether the session is this one's, too; the first one of its kind makes it so.
    pub fn admits(&mut self, who: &Who) -> bool {
        match who {
            Who::Certificate(name) => {
                if *self == Owner::default() {
                    self.certificate = Some(name.clone());
                }
                self.certificate.as_ref() == Some(name)
            }
            _ if self.certificate.is_some() => false,
            Who::User(user) => self.user.get_or_insert(*user) == user,
            Who::Address(address) => self.address.get_or_insert(*address) == address,
            Who::Unknown => *self == Owner::default(),
        }
    }

    /// On whose account the session is: the user's, if it is both a user's and an address's.
    pub fn guest(&self) -> Guest {
        if let Some(name) = &self.certificate {
            return Guest::Certificate(name.clone());
        }
        let user = self.user.map(|user| Guest::User(Some(user)));
        user.or(self.address.map(Guest::at)).unwrap_or(Guest::UNKNOWN)
    }
}

impl fmt::Display for Owner {
    fn fmt(&self, f: &mut fmt::Formatter<'_>) -> fmt::Result {
        let user = self.user.map_or(Who::Unknown, Who::User);
        let known = self.certificate.clone().map_or(user, Who::Certificate);
        write!(f, "{known} {}", self.address.map_or(Who::Unknown, Who::Address))
    }
}

impl Owner {
    /// The two words that `Display` writes.
    pub fn parse(known: &str, address: &str) -> Result<Owner, NotALine> {
        let address = match address.parse()? {
            Who::Address(address) => Some(address),
            Who::Unknown => None,
            Who::User(_) | Who::Certificate(_) => return Err(NotALine::Syntax),
        };
        match known.parse()? {
            Who::User(user) => Ok(Owner { user: Some(user), address, certificate: None }),
            Who::Unknown => Ok(Owner { user: None, address, certificate: None }),
            Who::Certificate(name) if address.is_none() => Ok(Owner { certificate: Some(name), ..Owner::default() }),
            Who::Certificate(_) | Who::Address(_) => Err(NotALine::Syntax),
        }
    }
}

#[cfg(test)]
mod tests {
    use super::*;

    #[test]
    fn words() {
        for word in ["-", "u0", "u1000", "a10.0.0.1", "afe80::1", "cbuild-1", "cRen%C3%A9%20M"] {
            assert_eq!(word.parse::<Who>().map(|who| who.to_string()), Ok(word.into()));
        }
        for word in ["", "u", "ux", "u4294967296", "a", "a10.0.0", "x1", "10.0.0.1", "c", "ca b", "cé", "c%41"] {
            assert!(word.parse::<Who>().is_err(), "{word}");
        }
        assert_eq!(Who::at("::ffff:10.0.0.1".parse().unwrap()).to_string(), "a10.0.0.1");
        for words in ["- -", "u7 -", "- a10.0.0.1", "u7 a::1", "cbuild-1 -"] {
            let (user, address) = words.split_once(' ').unwrap();
            assert_eq!(Owner::parse(user, address).map(|owner| owner.to_string()), Ok(words.into()));
            assert!(words == "- -" || Owner::parse(address, user).is_err());
        }
        assert!(Owner::parse("cbuild-1", "a10.0.0.1").is_err() && Owner::parse("u7", "cbuild-1").is_err());
    }

    #[test]
    fn the_first_of_each_kind() {
        let mut owner = Owner::default();
        let [one, two] = ["10.0.0.1", "10.0.0.2"].map(|address| Who::at(address.parse().unwrap()));
        assert!(owner.admits(&Who::Unknown) && owner.admits(&Who::User(7)) && owner.admits(&one));
        assert!(owner.admits(&Who::User(7)) && owner.admits(&one));
        assert!(!owner.admits(&Who::User(0)) && !owner.admits(&two) && !owner.admits(&Who::Unknown));
        assert!(!owner.admits(&certificate("a")));
        assert_eq!((owner.to_string(), owner.guest()), ("u7 a10.0.0.1".into(), Guest::User(Some(7))));
    }

    fn certificate(name: &str) -> Who {
        Who::Certificate(CertificateName::new(name.as_bytes()).unwrap())
    }

    #[test]
    fn that_of_a_certificate_is_nobody_elses() {
        let mut owner = Owner::default();
        assert!(owner.admits(&certificate("a")) && owner.admits(&certificate("a")));
        for other in [certificate("b"), Who::User(7), Who::at("10.0.0.1".parse().unwrap()), Who::Unknown] {
            assert!(!owner.admits(&other), "{other}");
        }
        assert_eq!((owner.to_string(), owner.guest()), ("ca -".into(), certificate("a").into()));
    }
}
