//! The list of locks, as the command line and the file `locks` have it.

use std::collections::{HashMap, HashSet};
use std::fmt;
use std::hash::{BuildHasherDefault, Hasher};
use wozgirt_engine::{Lock, LONGEST_NAME};

/// What is kept of the locks of a list, by their names.
pub type ByName<T> = HashMap<Lock, T, BuildHasherDefault<Fnv>>;

/// FNV-1a, which is quick for short names. Which names there are says the list: no client can have them collide.
pub struct Fnv(u64);

impl Default for Fnv {
    fn default() -> Fnv {
        Fnv(0xcbf2_9ce4_8422_2325)
    }
}

impl Hasher for Fnv {
    fn write(&mut self, bytes: &[u8]) {
        bytes.iter().for_each(|b| self.0 = (self.0 ^ u64::from(*b)).wrapping_mul(0x0100_0000_01b3));
    }

    fn finish(&self) -> u64 {
        self.0
    }
}

/// What a list has for the locks of any other name.
const ANY: &str = "*";
/// How many machines a lock has, if nothing is said: one of the list, and one of any other name.
const MACHINES: u32 = 8;
const MACHINES_OF_ANY: u32 = 2;
/// After this many bytes the rest of a list is a number.
const LONGEST_SHORT: usize = 200;

/// All locks with their sizes, in the order of the list; and the size of those of any other name, if there may be any. One of the two is
/// there.
#[derive(Debug)]
pub struct Names {
    listed: Vec<(Lock, u32, u32)>,
    any: Option<(u32, u32)>,
    /// The names of the list, if there may be others.
    fixed: ByName<()>,
}

/// Why a text is not a list of locks.
#[derive(Debug, PartialEq, Eq)]
pub enum BadNames {
    /// There is no lock in it.
    None,
    /// This is not `NAME`, `NAME:N` or `NAME:N:K`.
    Lock(String),
    /// Two locks have this name.
    Twice(String),
    /// Something comes after `*`.
    AfterAny,
}

impl fmt::Display for BadNames {
    fn fmt(&self, f: &mut fmt::Formatter<'_>) -> fmt::Result {
        match self {
            BadNames::None => f.write_str("there are no locks"),
            BadNames::Lock(text) => write!(
                f,
                "`{text}` is not NAME, NAME:N or NAME:N:K; a name has 1 to {LONGEST_NAME} letters, digits, `.`, `_`, `-`, `/`"
            ),
            BadNames::Twice(name) => write!(f, "two locks are named {name}"),
            BadNames::AfterAny => write!(f, "`{ANY}`, which is any other name, comes last"),
        }
    }
}

impl std::error::Error for BadNames {}

impl Names {
    /// The names in a list `NAME[:N[:K]],..`, or in a text with such a lock, or `NAME N K`, in each line. The last one may be `*`.
    pub fn parse(list: &str) -> Result<Names, BadNames> {
        let (mut listed, mut known, mut any) = (Vec::new(), HashSet::new(), None);
        for lock in list.split([',', '\n']).map(str::trim).filter(|lock| !lock.is_empty()) {
            let bad = || BadNames::Lock(lock.chars().take(2 * LONGEST_NAME).collect());
            if any.is_some() {
                return Err(BadNames::AfterAny);
            }
            let name = lock.split([':', ' ']).next().unwrap_or(lock);
            if name == ANY {
                any = Some(size(lock, MACHINES_OF_ANY).ok_or_else(bad)?);
                continue;
            }
            let (name, (n, k)) = (name.parse().map_err(|_| bad())?, size(lock, MACHINES).ok_or_else(bad)?);
            if !known.insert(Lock::clone(&name)) {
                return Err(BadNames::Twice(name.to_string()));
            }
            listed.push((name, n, k));
        }
        if listed.is_empty() && any.is_none() {
            return Err(BadNames::None);
        }
        let fixed = if any.is_some() { known.into_iter().map(|lock| (lock, ())).collect() } else { ByName::default() };
        Ok(Names { listed, any, fixed })
    }

    /// Each lock of the list, in order.
    pub fn locks(&self) -> impl Iterator<Item = &Lock> {
        self.listed.iter().map(|(lock, ..)| lock)
    }

    /// How many machines a lock of any other name has, if there may be one.
    pub fn any(&self) -> Option<u32> {
        self.any.map(|(n, _)| n)
    }

    /// Whether the lock, if there may be one of this name, is one of the list.
    pub fn is_listed(&self, name: &str) -> bool {
        self.any.is_none() || self.fixed.contains_key(name)
    }

    /// The list as a person would write it: without the sizes that a lock has if nothing is said, and no longer than is read at a glance.
    pub fn short(&self) -> String {
        let listed = self.listed.iter().map(|(lock, n, k)| (&**lock, *n, *k, MACHINES));
        let any = self.any.map(|(n, k)| (ANY, n, k, MACHINES_OF_ANY));
        let (mut text, mut left) = (String::new(), self.listed.len() + usize::from(any.is_some()));
        for (name, n, k, usual) in listed.chain(any) {
            if text.len() > LONGEST_SHORT {
                return format!("{text},.. ({left} more)");
            }
            let comma = if text.is_empty() { "" } else { "," };
            text += &match (n == usual, k == n) {
                (true, true) => format!("{comma}{name}"),
                (false, true) => format!("{comma}{name}:{n}"),
                _ => format!("{comma}{name}:{n}:{k}"),
            };
            left -= 1;
        }
        text
    }

    /// The first place, from 0, at which this list has not what the other has there; nothing if it is the other one, with more at its end.
    /// After `*` nothing can be added.
    pub fn first_change(&self, old: &Names) -> Option<usize> {
        let place = old.listed.iter().enumerate().position(|(i, lock)| self.listed.get(i) != Some(lock));
        let has_other_end = old.any.is_some() && (self.any != old.any || self.listed.len() != old.listed.len());
        place.or_else(|| has_other_end.then_some(old.listed.len()))
    }

    /// The list with all sizes.
    pub fn list(&self) -> String {
        let any = self.any.map(|(n, k)| format!("{ANY}:{n}:{k}"));
        self.listed.iter().map(|(lock, n, k)| format!("{lock}:{n}:{k}")).chain(any).collect::<Vec<_>>().join(",")
    }
}

/// The size of a lock, with what follows its name.
fn size(text: &str, machines: u32) -> Option<(u32, u32)> {
    let mut parts = text.split([':', ' ']).skip(1);
    let n = parts.next().map_or(Some(machines), |n| n.parse().ok())?;
    let k = parts.next().map_or(Some(n), |k| k.parse().ok())?;
    parts.next().is_none().then_some((n, k))
}

#[cfg(test)]
mod tests {
    use super::*;

    #[test]
    fn lists_and_files() {
        for text in ["deploy,gpu/0:3,db:3:5", "deploy\ngpu/0:3\ndb:3:5\n", "deploy 8 8\ngpu/0 3 3\ndb 3 5\n"] {
            let names = Names::parse(text).unwrap();
            assert_eq!(names.locks().map(|lock| &**lock).collect::<Vec<_>>(), ["deploy", "gpu/0", "db"]);
            assert_eq!(names.list(), "deploy:8:8,gpu/0:3:3,db:3:5");
            assert!(names.any().is_none() && names.is_listed("db"));
        }
        let longest = "n".repeat(128);
        assert_eq!(Names::parse(&longest).unwrap().list(), format!("{longest}:8:8"));
    }

    #[test]
    fn any_other_name() {
        for (text, list, machines) in [
            ("*", "*:2:2", 2),
            ("*:3", "*:3:3", 3),
            ("a,b:3,*:2:5", "a:8:8,b:3:3,*:2:5", 2),
            ("a 8 8\nb 3 3\n* 4 5\n", "a:8:8,b:3:3,*:4:5", 4),
        ] {
            let names = Names::parse(text).unwrap();
            assert_eq!((names.list().as_str(), names.any()), (list, Some(machines)));
            assert_eq!((names.is_listed("b"), names.is_listed("c")), (list.contains("b:"), false));
        }
    }

    #[test]
    fn lists_that_continue_others() {
        for (old, new, place) in [
            ("a,b", "a,b", None),
            ("a,b", "a,b,c", None),
            ("a,b", "a,b,c,*", None),
            ("*", "*:2", None),
            ("a,b:3,*", "a:8:8,b:3:3,*:2:2", None),
            ("a,b", "a", Some(1)),
            ("a,b", "b,a", Some(0)),
            ("a,b", "a,b:3", Some(1)),
            ("a,b", "*", Some(0)),
            ("a,*", "a", Some(1)),
            ("a,*", "a,b,*", Some(1)),
            ("a,*", "a,*:3", Some(1)),
            ("*", "a,*", Some(0)),
        ] {
            let [old, new] = [old, new].map(|list| Names::parse(list).unwrap());
            assert_eq!(new.first_change(&old), place, "{} {}", old.list(), new.list());
        }
    }

    #[test]
    fn lists_as_they_are_written() {
        for list in ["a,b:3,c:3:5,*", "*:3", "a,*:2:5", "a:8:9"] {
            assert_eq!(Names::parse(list).unwrap().short(), list);
        }
        assert_eq!(Names::parse("a 8 8\nb 3 3\n* 2 2\n").unwrap().short(), "a,b:3,*");
        let many = (0..1000).map(|i| format!("lock/{i}")).collect::<Vec<_>>().join(",");
        let short = Names::parse(&many).unwrap().short();
        assert!(short.starts_with("lock/0,lock/1,") && short.ends_with(" more)") && short.len() < 300, "{short}");
    }

    #[test]
    fn refusals() {
        assert_eq!(Names::parse("").unwrap_err(), BadNames::None);
        assert_eq!(Names::parse("a,b,a:3").unwrap_err(), BadNames::Twice("a".into()));
        for text in ["a b", "a:x", "a:1:2:3", "é", "a=1", ":3", "*:x", "*:1:2:3", "**", "a*", &"n".repeat(129)] {
            assert_eq!(Names::parse(text).unwrap_err(), BadNames::Lock(text.into()));
        }
        for text in ["*,a", "a,*,b", "*,*", "* 2 2\na 8 8\n"] {
            assert_eq!(Names::parse(text).unwrap_err(), BadNames::AfterAny);
        }
    }
}
