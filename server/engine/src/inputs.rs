//! What the engine is asked.

use crate::words::Words;
use crate::{decimal, Client, Label, Lock, NotALine, Token};
use std::fmt;
use std::str::FromStr;

/// One input of a client.
#[derive(Clone, Debug, PartialEq, Eq)]
pub enum Input {
    /// To hold the lock, at once or later.
    Acquire {
        /// The lock.
        lock: Lock,
        /// What the journal keeps of the hold.
        label: Label,
    },
    /// To hold the lock at once or not at all.
    Try {
        /// The lock.
        lock: Lock,
        /// What the journal keeps of the hold.
        label: Label,
    },
    /// To end the hold with this token.
    Release {
        /// The lock.
        lock: Lock,
        /// The token of the hold.
        token: Token,
    },
    /// To wait for the lock no longer.
    Cancel {
        /// The lock.
        lock: Lock,
    },
    /// To end all holds and to wait for nothing. The one input without an answer.
    Leave,
    /// A fault.
    Corrupt {
        /// The lock.
        lock: Lock,
        /// The machine of its ring.
        machine: u64,
        /// What is written into the machine.
        value: u64,
    },
    /// How the lock is.
    Stats {
        /// The lock.
        lock: Lock,
    },
}

impl Input {
    /// Its lock; a leave has none.
    pub fn lock(&self) -> Option<&Lock> {
        match self {
            Input::Acquire { lock, .. } | Input::Try { lock, .. } | Input::Release { lock, .. } => Some(lock),
            Input::Cancel { lock } | Input::Corrupt { lock, .. } | Input::Stats { lock } => Some(lock),
            Input::Leave => None,
        }
    }
}

impl fmt::Display for Input {
    fn fmt(&self, f: &mut fmt::Formatter<'_>) -> fmt::Result {
        match self {
            Input::Acquire { lock, label } => write!(f, "acquire {lock} {label}"),
            Input::Try { lock, label } => write!(f, "try {lock} {label}"),
            Input::Release { lock, token } => write!(f, "release {lock} {token}"),
            Input::Cancel { lock } => write!(f, "cancel {lock}"),
            Input::Leave => f.write_str("leave"),
            Input::Corrupt { lock, machine, value } => write!(f, "corrupt {lock} {machine} {value}"),
            Input::Stats { lock } => write!(f, "stats {lock}"),
        }
    }
}

/// An input, with the client that asks.
#[derive(Clone, Debug, PartialEq, Eq)]
pub struct Asked {
    /// The client that asks.
    pub client: Client,
    /// What is asked.
    pub input: Input,
}

impl fmt::Display for Asked {
    fn fmt(&self, f: &mut fmt::Formatter<'_>) -> fmt::Result {
        write!(f, "{} {}", self.client, self.input)
    }
}

impl FromStr for Input {
    type Err = NotALine;

    fn from_str(text: &str) -> Result<Input, NotALine> {
        let mut words = Words::of(text);
        let word = words.word()?;
        if word == "leave" {
            let [] = words.numbers()?;
            return Ok(Input::Leave);
        }
        let lock: Lock = words.word()?.parse()?;
        Ok(match word {
            "acquire" => {
                let [label] = words.numbers()?;
                Input::Acquire { lock, label }
            }
            "try" => {
                let [label] = words.numbers()?;
                Input::Try { lock, label }
            }
            "release" => {
                let [token] = words.numbers()?;
                Input::Release { lock, token }
            }
            "cancel" => {
                let [] = words.numbers()?;
                Input::Cancel { lock }
            }
            "corrupt" => {
                let [machine, value] = words.numbers()?;
                Input::Corrupt { lock, machine, value }
            }
            "stats" => {
                let [] = words.numbers()?;
                Input::Stats { lock }
            }
            _ => return Err(NotALine::Syntax),
        })
    }
}

impl FromStr for Asked {
    type Err = NotALine;

    fn from_str(line: &str) -> Result<Asked, NotALine> {
        let (client, input) = line.split_once(' ').ok_or(NotALine::Syntax)?;
        Ok(Asked { client: decimal(client)?, input: input.parse()? })
    }
}

#[cfg(test)]
mod tests {
    use super::*;

    #[test]
    fn each_input_is_written_and_read() {
        let lock: Lock = "a".parse().unwrap();
        let lines = [
            ("1 acquire a 77", Input::Acquire { lock: lock.clone(), label: 77 }),
            ("1 try a 18446744073709551615", Input::Try { lock: lock.clone(), label: u64::MAX }),
            ("1 release a 1", Input::Release { lock: lock.clone(), token: 1 }),
            ("1 cancel a", Input::Cancel { lock: lock.clone() }),
            ("1 leave", Input::Leave),
            ("1 corrupt a 2 5", Input::Corrupt { lock: lock.clone(), machine: 2, value: 5 }),
            ("1 stats a", Input::Stats { lock: lock.clone() }),
        ];
        for (line, input) in lines {
            assert_eq!(input.lock(), (input != Input::Leave).then_some(&lock));
            let asked = Asked { client: 1, input };
            assert_eq!(asked.to_string(), line);
            assert_eq!(line.parse(), Ok(asked));
        }
    }

    #[test]
    fn refusals_name_the_first_fault() {
        for line in [
            "",
            "1",
            "x acquire a 1",
            "1 jump a",
            "1 acquire a",
            "1 acquire a 1 2",
            "1 leave a",
            "1  leave",
            "1 cancel é",
        ] {
            assert_eq!(line.parse::<Asked>(), Err(NotALine::Syntax), "{line:?}");
        }
        assert_eq!("1 acquire a 18446744073709551616".parse::<Asked>(), Err(NotALine::Number));
        assert_eq!("1 acquire : 18446744073709551616".parse::<Asked>(), Err(NotALine::Syntax));
        assert_eq!("1 corrupt a 18446744073709551616 x".parse::<Asked>(), Err(NotALine::Syntax));
        assert_eq!("18446744073709551616 leave".parse::<Asked>(), Err(NotALine::Number));
    }
}
