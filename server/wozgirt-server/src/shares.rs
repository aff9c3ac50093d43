//! The part of each user, of each address over TCP, and of each certificate, of what is bounded: the last of it is for those that have little.

use crate::certificate_name::CertificateName;
use crate::cluster::Who;
use std::collections::HashMap;
use std::net::{IpAddr, Ipv4Addr, Ipv6Addr};

/// Of an eighth more sessions, and of the last eighth of names, each guest finds as many as this, or an eighth if that is less.
const MOST_FEW: usize = 64;

/// On whose account something is.
#[derive(Debug, Clone, PartialEq, Eq, Hash)]
pub enum Guest {
    /// A user of this machine, or nobody knows who.
    User(Option<u32>),
    /// An address; those of the loopback are one, and so are the IPv6 addresses of one network.
    Address(IpAddr),
    /// Whoever has a certificate of this name, wherever it comes from.
    Certificate(CertificateName),
}

impl Guest {
    /// Nobody knows who.
    pub const UNKNOWN: Guest = Guest::User(None);

    /// Whoever comes from this address.
    pub fn at(address: IpAddr) -> Guest {
        let mapped = if let IpAddr::V6(it) = address { it.to_ipv4_mapped().map(IpAddr::V4) } else { None };
        Guest::Address(match mapped.unwrap_or(address) {
            IpAddr::V4(it) if it.is_loopback() => Ipv4Addr::LOCALHOST.into(),
            IpAddr::V6(it) => {
                let [a, b, c, d, ..] = it.segments();
                Ipv6Addr::new(a, b, c, d, 0, 0, 0, 0).into()
            }
            it => it,
        })
    }
}

impl Guest {
    /// The name of its certificate, if that is who it is.
    pub fn certificate(&self) -> Option<&CertificateName> {
        match self {
            Guest::Certificate(name) => Some(name),
            _ => None,
        }
    }
}

impl From<Who> for Guest {
    fn from(who: Who) -> Guest {
        match who {
            Who::User(user) => Guest::User(Some(user)),
            Who::Address(address) => Guest::at(address),
            Who::Certificate(name) => Guest::Certificate(name),
            Who::Unknown => Guest::UNKNOWN,
        }
    }
}

/// How many of something each guest has.
#[derive(Debug, Default)]
pub struct Counts {
    all: usize,
    by: HashMap<Guest, usize>,
}

impl Counts {
    /// How many all have.
    pub fn all(&self) -> usize {
        self.all
    }

    /// How many this one has.
    pub fn of(&self, guest: &Guest) -> usize {
        self.by.get(guest).copied().unwrap_or(0)
    }

    /// It has one more.
    pub fn add(&mut self, guest: Guest) {
        self.all += 1;
        *self.by.entry(guest).or_default() += 1;
    }

    /// It has one less.
    pub fn remove(&mut self, guest: &Guest) {
        let Some(count) = self.by.get_mut(guest) else { return };
        self.all -= 1;
        *count -= 1;
        if *count == 0 {
            self.by.remove(guest);
        }
    }
}

/// How many there may be.
#[derive(Debug, Clone, Copy, PartialEq, Eq)]
pub struct Share {
    /// For anybody.
    most: usize,
    /// And in addition for guests that have fewer than `few`.
    extra: usize,
    few: usize,
}

impl Share {
    /// This many for anybody, and some more.
    pub const fn new(most: usize, extra: usize, few: usize) -> Share {
        Share { most, extra, few }
    }

    /// An eighth more for guests that have few.
    pub fn beyond(most: usize) -> Share {
        Share { most, extra: (most / 8).max(1), few: (most / 8).clamp(1, MOST_FEW) }
    }

    /// Of this many the last eighth for guests that have few.
    pub fn within(all: usize) -> Share {
        let extra = all / 8;
        Share { most: all - extra, extra, few: (extra / 8).clamp(1, MOST_FEW) }
    }

    /// Whether the guest may have one more.
    pub fn permits(&self, counts: &Counts, guest: &Guest) -> bool {
        counts.all < self.most || counts.of(guest) < self.few && counts.all < self.most + self.extra
    }
}

#[cfg(test)]
mod tests {
    use super::*;

    /// How many the guest gets, of more than there may be.
    fn taken(share: Share, counts: &mut Counts, guest: Guest) -> usize {
        let before = counts.of(&guest);
        for _ in 0..2 * (share.most + share.extra) {
            if share.permits(counts, &guest) {
                counts.add(guest.clone());
            }
        }
        counts.of(&guest) - before
    }

    #[test]
    fn nobody_takes_the_part_of_the_others() {
        let [one, two, three] = [1, 2, 3].map(|user| Guest::User(Some(user)));
        for (share, parts) in [
            (Share::beyond(8000), [8000, 64, 64]),
            (Share::within(65536), [57344, 64, 64]),
            (Share::within(4000), [3500, 62, 62]),
            (Share::within(8), [7, 1, 0]),
            (Share::within(3), [3, 0, 0]),
            (Share::new(9, 3, 2), [9, 2, 1]),
        ] {
            let mut counts = Counts::default();
            assert_eq!([&one, &two, &three].map(|guest| taken(share, &mut counts, guest.clone())), parts, "{share:?}");
            assert_eq!((counts.all(), counts.of(&one)), (parts.iter().sum(), parts[0]));
            (0..parts[0]).for_each(|_| counts.remove(&one));
            counts.remove(&one);
            assert_eq!((counts.all(), counts.by.contains_key(&one)), (parts[1] + parts[2], false));
            assert!(share.permits(&counts, &one));
        }
    }

    #[test]
    fn addresses_of_one_host_are_one() {
        let guest = |address: &str| Guest::at(address.parse().unwrap());
        assert_eq!(guest("127.0.0.1"), guest("127.200.3.4"));
        assert_eq!(guest("::ffff:127.0.0.1"), guest("127.0.0.1"));
        assert_eq!(guest("2001:db8::1"), guest("2001:db8::2:1"));
        assert_ne!(guest("2001:db8::1"), guest("2001:db8:0:1::1"));
        assert_ne!(guest("10.0.0.1"), guest("10.0.0.2"));
        assert_eq!(Guest::from(Who::User(7)), Guest::User(Some(7)));
        let name = CertificateName::new(b"a").unwrap();
        assert_eq!(Guest::from(Who::Certificate(name.clone())).certificate(), Some(&name));
    }
}
