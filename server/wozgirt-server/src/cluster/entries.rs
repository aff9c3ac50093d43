//! An entry of the log: its writer, what the writer's engine had answered by then, and lines for the engines of all.
//!
//! ```text
//! by NAME INCARNATION SERIAL POSITION DIGEST
//! with SETTINGS
//! here KEY WHO
//! KEY NUMBER INPUT
//! gone KEY
//! server NAME INCARNATION
//! ```
//!
//! The lines follow one another, with a tab between them. So an entry is one line of printable ASCII. SETTINGS begin with [`VERSION`].

use super::owner::Who;
use std::fmt;
use std::rc::Rc;
use std::str::FromStr;
use wozgirt_engine::{decimal, Client, Input};

/// The version of these lines. In those of the first, whose SETTINGS begin without a version, an INPUT had the number of its lock; in
/// those of the second no WHO is a certificate, so a server that reads only them would take such an entry for none. A server begins in no
/// log whose SETTINGS are others, so no engine gets an input that means something else to another one.
pub const VERSION: u64 = 3;

/// The number of a session, which the log gives: the engine's client, and the key of its inputs. All may know it.
pub type Session = Client;
/// The word by which its client is known: it draws one, or the server does.
pub type Key = u64;

/// A server, as it was started once.
#[derive(Debug, Clone, PartialEq, Eq, PartialOrd, Ord)]
pub struct Server {
    /// Its name.
    pub name: Rc<str>,
    /// The number of its start.
    pub incarnation: u64,
}

impl fmt::Display for Server {
    fn fmt(&self, f: &mut fmt::Formatter<'_>) -> fmt::Result {
        write!(f, "{} {}", self.name, self.incarnation)
    }
}

/// One line of an entry.
#[derive(Debug, Clone, PartialEq, Eq)]
pub enum Line {
    /// The settings of the server that begins with this entry: all have the same.
    With(String),
    /// From here on the session is a client's of this server, if it is not somebody else's.
    Here(Key, Who),
    /// An input of the session, with its number.
    Do(Key, u64, Input),
    /// The session is over, if it is this server's.
    Gone(Key),
    /// The server is over, with all sessions that are its own.
    Server(Server),
}

impl fmt::Display for Line {
    fn fmt(&self, f: &mut fmt::Formatter<'_>) -> fmt::Result {
        match self {
            Line::With(settings) => write!(f, "with {settings}"),
            Line::Here(key, who) => write!(f, "here {key} {who}"),
            Line::Do(key, number, input) => write!(f, "{key} {number} {input}"),
            Line::Gone(key) => write!(f, "gone {key}"),
            Line::Server(server) => write!(f, "server {server}"),
        }
    }
}

/// An entry.
#[derive(Debug, Clone, PartialEq, Eq)]
pub struct Entry {
    /// Its writer.
    pub writer: Server,
    /// The number of this entry among those of its writer, from 1.
    pub serial: u64,
    /// The entry up to which the writer's engine had answered.
    pub position: u64,
    /// Its digest there.
    pub digest: String,
    /// The lines.
    pub lines: Vec<Line>,
}

impl fmt::Display for Entry {
    fn fmt(&self, f: &mut fmt::Formatter<'_>) -> fmt::Result {
        write!(f, "by {} {} {} {}", self.writer, self.serial, self.position, self.digest)?;
        self.lines.iter().try_for_each(|line| write!(f, "\t{line}"))
    }
}

/// A text is not an entry.
#[derive(Debug, PartialEq, Eq)]
pub struct NoEntry;

impl FromStr for Entry {
    type Err = NoEntry;

    fn from_str(text: &str) -> Result<Entry, NoEntry> {
        let mut lines = text.split('\t');
        let head: Vec<&str> = lines.next().unwrap_or("").split(' ').collect();
        let ["by", name, incarnation, serial, position, digest] = head[..] else { return Err(NoEntry) };
        if !is_digest(digest) {
            return Err(NoEntry);
        }
        Ok(Entry {
            writer: server(name, incarnation)?,
            serial: number(serial)?,
            position: number(position)?,
            digest: digest.into(),
            lines: lines.map(line).collect::<Result<_, _>>()?,
        })
    }
}

fn number(word: &str) -> Result<u64, NoEntry> {
    decimal(word).map_err(|_| NoEntry)
}

/// A server by its two words.
pub fn server(name: &str, incarnation: &str) -> Result<Server, NoEntry> {
    if !is_name(name) {
        return Err(NoEntry);
    }
    Ok(Server { name: name.into(), incarnation: number(incarnation)? })
}

/// Whether this may be the name of a server.
pub fn is_name(name: &str) -> bool {
    let is_part = |b: u8| b.is_ascii_alphanumeric() || matches!(b, b'.' | b'_' | b'-');
    (1..=64).contains(&name.len()) && name.bytes().all(is_part)
}

/// Whether this is a digest.
pub fn is_digest(word: &str) -> bool {
    word.len() == 64 && word.bytes().all(|b| b.is_ascii_digit() || (b'a'..=b'f').contains(&b))
}

fn line(text: &str) -> Result<Line, NoEntry> {
    let (word, rest) = text.split_once(' ').ok_or(NoEntry)?;
    match word {
        "with" => Ok(Line::With(rest.into())),
        "here" => {
            let (key, who) = rest.split_once(' ').ok_or(NoEntry)?;
            Ok(Line::Here(number(key)?, who.parse().map_err(|_| NoEntry)?))
        }
        "gone" => Ok(Line::Gone(number(rest)?)),
        "server" => {
            let (name, incarnation) = rest.split_once(' ').ok_or(NoEntry)?;
            Ok(Line::Server(server(name, incarnation)?))
        }
        key => {
            let (its_number, input) = rest.split_once(' ').ok_or(NoEntry)?;
            let input = input.parse().map_err(|_| NoEntry)?;
            if matches!(input, Input::Leave | Input::Stats { .. }) {
                return Err(NoEntry); // a leave has no answer to be kept, and a look belongs to no history
            }
            Ok(Line::Do(number(key)?, number(its_number)?, input))
        }
    }
}

#[cfg(test)]
mod tests {
    use super::*;

    #[test]
    fn an_entry_is_written_and_read() {
        let zeros = "0".repeat(64);
        let text = format!(
            "by a 3 1 0 {zeros}\twith 3 100 - 0 a:8:8\there 7 u0\there 8 cRen%C3%A9\t7 1 acquire a 5\t7 2 release a 1\tgone 7\tserver b.c-d 2"
        );
        let entry: Entry = text.parse().unwrap();
        assert_eq!((&*entry.writer.name, entry.writer.incarnation, entry.serial), ("a", 3, 1));
        assert_eq!(entry.lines[3], Line::Do(7, 1, Input::Acquire { lock: "a".parse().unwrap(), label: 5 }));
        assert_eq!(entry.to_string(), text);
        let empty = format!("by a 3 2 9 {zeros}");
        assert_eq!(empty.parse::<Entry>().unwrap().to_string(), empty);
    }

    #[test]
    fn other_texts_are_none() {
        let head = format!("by a 1 1 0 {}", "0".repeat(64));
        for text in [
            "",
            "\n",
            "by a 1 1 0 0",
            "by a/b 1 1 0 0",
            &head[..head.len() - 1],
            &format!("{head}\t"),
            &format!("{head}\n"),
        ] {
            assert_eq!(text.parse::<Entry>(), Err(NoEntry), "{text:?}");
        }
        for line in [
            "here",
            "here x",
            "here 1",
            "here 1 x",
            "here 1 u0 u0",
            "here 1 c",
            "here 1 ca b",
            "here 1 c%41",
            "gone 1 2",
            "server a",
            "server a b",
            "1 2",
            "1 2 leave",
            "1 2 stats a",
            "1 2 jump a",
            "1 2 cancel é",
            "1 x cancel a",
            "name 17 41 8812 order/4711",
            "free 17",
            "floor 8812",
        ] {
            assert_eq!(format!("{head}\t{line}").parse::<Entry>(), Err(NoEntry), "{line:?}");
        }
    }
}
