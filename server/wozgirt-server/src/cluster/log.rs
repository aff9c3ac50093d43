//! The lines of `wozgirt-log`, the process that speaks to etcd.

use super::entries::{server, Server};
use std::collections::BTreeSet;
use std::str::FromStr;
use wozgirt_engine::{decimal, NotALine};

/// A line of it.
#[derive(Debug, PartialEq, Eq)]
pub enum Told {
    /// The log, and the number of this start.
    Log {
        /// The word that was drawn for the log.
        identity: String,
        /// The number of this start.
        incarnation: u64,
    },
    /// The next entry.
    Entry {
        /// Its place, from 1 on.
        position: u64,
        /// Its revision in etcd.
        revision: u64,
        /// Its text.
        text: String,
    },
    /// The servers whose lease is still valid.
    Alive(BTreeSet<Server>),
    /// The server's lease was renewed after this of its signs of life.
    Kept(u64),
    /// A host that keeps the log from being shortened.
    Away {
        /// Its name.
        name: String,
        /// For how long.
        seconds: u64,
    },
    /// etcd has no room for entries.
    Full,
    /// It is another log, or an earlier state of it: why.
    Other(String),
    /// The log does not reach back to what is wanted: why.
    Gone(String),
    /// Another server of this name is alive: this start of it.
    Taken(u64),
}

impl FromStr for Told {
    type Err = NotALine;

    fn from_str(line: &str) -> Result<Told, NotALine> {
        if let Some(rest) = line.strip_prefix("entry ") {
            let mut words = rest.splitn(3, ' ');
            let mut next = || words.next().ok_or(NotALine::Syntax);
            let (position, revision) = (decimal(next()?)?, decimal(next()?)?);
            return Ok(Told::Entry { position, revision, text: next()?.into() });
        }
        if let Some(why) = line.strip_prefix("lost other ") {
            return Ok(Told::Other(why.into()));
        }
        if let Some(why) = line.strip_prefix("lost gone ") {
            return Ok(Told::Gone(why.into()));
        }
        let words: Vec<&str> = line.split(' ').collect();
        match words[..] {
            ["log", identity, incarnation] => {
                Ok(Told::Log { identity: identity.into(), incarnation: decimal(incarnation)? })
            }
            ["alive", ref servers @ ..] => {
                let servers = servers.iter().filter(|word| !word.is_empty());
                servers.map(|word| one(word)).collect::<Result<_, _>>().map(Told::Alive)
            }
            ["full"] => Ok(Told::Full),
            ["taken", incarnation] => Ok(Told::Taken(decimal(incarnation)?)),
            ["kept", number] => Ok(Told::Kept(decimal(number)?)),
            ["away", name, seconds] => Ok(Told::Away { name: name.into(), seconds: decimal(seconds)? }),
            _ => Err(NotALine::Syntax),
        }
    }
}

fn one(word: &str) -> Result<Server, NotALine> {
    let (name, incarnation) = word.split_once(':').ok_or(NotALine::Syntax)?;
    server(name, incarnation).map_err(|_| NotALine::Syntax)
}

#[cfg(test)]
mod tests {
    use super::*;

    #[test]
    fn each_line() {
        assert_eq!("log x1 7".parse(), Ok(Told::Log { identity: "x1".into(), incarnation: 7 }));
        let entry = Told::Entry { position: 3, revision: 9, text: "by a 1\t7 8".into() };
        assert_eq!("entry 3 9 by a 1\t7 8".parse(), Ok(entry));
        assert_eq!("entry 3 9 ".parse(), Ok(Told::Entry { position: 3, revision: 9, text: String::new() }));
        let servers = ["a 1", "b 22"].map(|text| {
            let (name, incarnation) = text.split_once(' ').unwrap();
            server(name, incarnation).unwrap()
        });
        assert_eq!("alive b:22 a:1".parse(), Ok(Told::Alive(servers.into())));
        assert_eq!("alive".parse(), Ok(Told::Alive(BTreeSet::new())));
        assert_eq!("kept 7".parse(), Ok(Told::Kept(7)));
        assert_eq!("away c 60".parse(), Ok(Told::Away { name: "c".into(), seconds: 60 }));
        assert_eq!("full".parse(), Ok(Told::Full));
        assert_eq!("lost other a b".parse(), Ok(Told::Other("a b".into())));
        assert_eq!("lost gone a b".parse(), Ok(Told::Gone("a b".into())));
        assert_eq!("taken 9".parse(), Ok(Told::Taken(9)));
        for line in [
            "lost",
            "lost x y",
            "taken",
            "full 1",
            "",
            "log x",
            "entry 1 2",
            "entry 1 x y",
            "alive a",
            "alive a:x",
            "away c",
            "bye",
        ] {
            assert_eq!(line.parse::<Told>(), Err(NotALine::Syntax), "{line:?}");
        }
    }
}
