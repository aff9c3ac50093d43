//! The lines of the engine's state: what brings its holds, its waiters, its keys and its place back at another start.

use crate::words::Words;
use crate::{decimal, Client, Label, Lock, NotALine, Token};
use std::fmt;
use std::str::FromStr;

/// One line of a state.
#[derive(Clone, Debug, PartialEq, Eq)]
pub enum StateLine {
    /// The client holds the lock. The engine reads such lines from a file, at its start.
    Hold {
        /// The lock.
        lock: Lock,
        /// The token of the hold.
        token: Token,
        /// The client.
        client: Client,
    },
    /// The client waits for the lock, after those that were listed before.
    Wait {
        /// The client.
        client: Client,
        /// The lock.
        lock: Lock,
        /// What the journal keeps of the hold.
        label: Label,
    },
    /// What was done last for a key.
    Did {
        /// The key.
        key: u64,
        /// The number of the input.
        number: u64,
        /// The first line of its answer; empty if it had none.
        answer: String,
    },
    /// A place in a log, and the digest of all answers up to there.
    At {
        /// The place.
        place: u64,
        /// The digest.
        digest: String,
    },
}

impl fmt::Display for StateLine {
    fn fmt(&self, f: &mut fmt::Formatter<'_>) -> fmt::Result {
        match self {
            StateLine::Hold { lock, token, client } => write!(f, "hold {lock} {token} {client}"),
            StateLine::Wait { client, lock, label } => write!(f, "{client} acquire {lock} {label}"),
            StateLine::Did { key, number, answer } => write!(f, "{key} {number} did {answer}"),
            StateLine::At { place, digest } => write!(f, "at {place} {digest}"),
        }
    }
}

impl FromStr for StateLine {
    type Err = NotALine;

    fn from_str(line: &str) -> Result<StateLine, NotALine> {
        if let Some(rest) = line.strip_prefix("hold ") {
            let mut words = Words::of(rest);
            let lock = words.word()?.parse()?;
            let [token, client] = words.numbers()?;
            return Ok(StateLine::Hold { lock, token, client });
        }
        if let Some((place, digest)) = line.strip_prefix("at ").and_then(|rest| rest.split_once(' ')) {
            let is_digest = !digest.is_empty() && digest.bytes().all(|b| b.is_ascii_hexdigit());
            let place = decimal(place)?;
            return is_digest.then(|| StateLine::At { place, digest: digest.into() }).ok_or(NotALine::Syntax);
        }
        let (first, rest) = line.split_once(' ').ok_or(NotALine::Syntax)?;
        if let Some(rest) = rest.strip_prefix("acquire ") {
            let mut words = Words::of(rest);
            let lock = words.word()?.parse()?;
            let [label] = words.numbers()?;
            return Ok(StateLine::Wait { client: decimal(first)?, lock, label });
        }
        let (number, answer) = rest.split_once(" did ").ok_or(NotALine::Syntax)?;
        Ok(StateLine::Did { key: decimal(first)?, number: decimal(number)?, answer: answer.into() })
    }
}

#[cfg(test)]
mod tests {
    use super::*;

    #[test]
    fn each_line_is_written_and_read() {
        let (zeros, lock) = ("0".repeat(64), || "a".parse().unwrap());
        for (text, line) in [
            ("hold a 3 7", StateLine::Hold { lock: lock(), token: 3, client: 7 }),
            ("8 acquire a 1", StateLine::Wait { client: 8, lock: lock(), label: 1 }),
            ("7 4 did 7 granted a 3", StateLine::Did { key: 7, number: 4, answer: "7 granted a 3".into() }),
            ("7 4 did ", StateLine::Did { key: 7, number: 4, answer: String::new() }),
            (&format!("at 12 {zeros}"), StateLine::At { place: 12, digest: zeros.clone() }),
        ] {
            assert_eq!((text.parse(), line.to_string()), (Ok(line), text.into()));
        }
    }

    #[test]
    fn what_is_no_line_of_a_state() {
        for line in [
            "",
            "hold a 3",
            "hold a 3 x",
            "hold é 3 7",
            "at 12",
            "at 12 x y",
            "8 acquire a",
            "8 acquire é 1",
            "8 release a 1",
            "7 4 did",
            "7 did x",
            "state 4",
            "name 17 41 8812 order/4711",
            "free 17",
            "floor 8812",
        ] {
            assert_eq!(line.parse::<StateLine>(), Err(NotALine::Syntax), "{line:?}");
        }
        assert_eq!("hold a 18446744073709551616 1".parse::<StateLine>(), Err(NotALine::Number));
    }
}
