//! What the engine answers.

use crate::words::Words;
use crate::{decimal, Client, NotALine, Token};
use std::fmt;

/// The longest reason of a refusal that this program does not know by name.
const LONGEST_REASON: usize = 32;

/// One answer to a client. What it names is in the line that it was read from.
#[derive(Clone, Copy, Debug, PartialEq, Eq)]
pub enum Answer<'a> {
    /// The client holds the lock.
    Granted {
        /// The lock.
        lock: &'a str,
        /// The token of the hold.
        token: Token,
    },
    /// The client waits for the lock.
    Waiting {
        /// The lock.
        lock: &'a str,
        /// How many are before it in the queue.
        before: u64,
    },
    /// A client holds the lock that was tried.
    Busy {
        /// The lock.
        lock: &'a str,
    },
    /// The hold ended.
    Released {
        /// The lock.
        lock: &'a str,
    },
    /// The client waits for the lock no longer.
    Cancelled {
        /// The lock.
        lock: &'a str,
    },
    /// The fault was written, and its ring repaired.
    Corrupted {
        /// The lock.
        lock: &'a str,
        /// The value that was written over.
        old: u64,
    },
    /// How a lock is.
    Stats(Stats<'a>),
    /// The input changed nothing.
    Refused {
        /// Why.
        why: Refusal<'a>,
        /// The lock, if the engine names it. Of `past` it is the last number of the key.
        lock: Option<&'a str>,
    },
}

/// How a lock is.
#[derive(Clone, Copy, Debug, PartialEq, Eq)]
pub struct Stats<'a> {
    /// The lock.
    pub lock: &'a str,
    /// How many machines its ring has.
    pub machines: u64,
    /// How many clients wait for it.
    pub waiters: u64,
    /// How many passes were granted, repairs among them.
    pub passes: u64,
    /// Its holder: [`crate::NOBODY`] with a token is a hold from before the engine's start.
    pub holder: Client,
    /// The token of the hold, or 0 if no client holds the lock.
    pub token: Token,
}

/// Why an input was refused.
#[derive(Clone, Copy, Debug, PartialEq, Eq)]
pub enum Refusal<'a> {
    /// It is not an input.
    Syntax,
    /// A number is 2^64 or more.
    Number,
    /// There is no such lock.
    Lock,
    /// The client holds this lock.
    Holds,
    /// The client waits for a lock.
    Waits,
    /// The client would wait for itself.
    Circle,
    /// The client does not hold the lock with this token.
    Holder,
    /// The client does not wait for the lock.
    Waiter,
    /// The ring has no such machine.
    Machine,
    /// The ring has no such value.
    Value,
    /// Faults are not permitted.
    Off,
    /// As many locks are held as may be, of those that are not in the list.
    Names,
    /// The journal has no room.
    Full,
    /// There is not enough memory.
    Memory,
    /// The next file of the journal cannot be written.
    File,
    /// A reason that a later engine may give: small letters.
    Other(&'a str),
}

impl<'a> Refusal<'a> {
    const NAMED: [(&'static str, Refusal<'static>); 15] = [
        ("syntax", Refusal::Syntax),
        ("number", Refusal::Number),
        ("lock", Refusal::Lock),
        ("holds", Refusal::Holds),
        ("waits", Refusal::Waits),
        ("circle", Refusal::Circle),
        ("holder", Refusal::Holder),
        ("waiter", Refusal::Waiter),
        ("machine", Refusal::Machine),
        ("value", Refusal::Value),
        ("off", Refusal::Off),
        ("names", Refusal::Names),
        ("full", Refusal::Full),
        ("memory", Refusal::Memory),
        ("file", Refusal::File),
    ];

    /// The word of the protocol.
    pub fn word(&self) -> &'a str {
        match *self {
            Refusal::Other(word) => word,
            named => Refusal::NAMED.iter().find(|(_, it)| *it == named).map_or("", |(word, _)| *word),
        }
    }

    fn parse(word: &'a str) -> Result<Refusal<'a>, NotALine> {
        if let Some((_, named)) = Refusal::NAMED.iter().find(|(it, _)| *it == word) {
            return Ok(*named);
        }
        let is_word = !word.is_empty() && word.len() <= LONGEST_REASON && word.bytes().all(|b| b.is_ascii_lowercase());
        is_word.then_some(Refusal::Other(word)).ok_or(NotALine::Syntax)
    }
}

impl fmt::Display for Refusal<'_> {
    fn fmt(&self, f: &mut fmt::Formatter<'_>) -> fmt::Result {
        f.write_str(self.word())
    }
}

/// An answer, with whom it is for.
#[derive(Clone, Copy, Debug, PartialEq, Eq)]
pub struct Answered<'a> {
    /// Whom it is for.
    pub client: Client,
    /// What is answered.
    pub answer: Answer<'a>,
}

impl fmt::Display for Answer<'_> {
    fn fmt(&self, f: &mut fmt::Formatter<'_>) -> fmt::Result {
        match self {
            Answer::Granted { lock, token } => write!(f, "granted {lock} {token}"),
            Answer::Waiting { lock, before } => write!(f, "waiting {lock} {before}"),
            Answer::Busy { lock } => write!(f, "busy {lock}"),
            Answer::Released { lock } => write!(f, "released {lock}"),
            Answer::Cancelled { lock } => write!(f, "cancelled {lock}"),
            Answer::Corrupted { lock, old } => write!(f, "corrupted {lock} {old}"),
            Answer::Stats(s) => {
                let Stats { lock, machines, waiters, passes, holder, token } = s;
                write!(f, "stats {lock} {machines} {waiters} {passes} {holder} {token}")
            }
            Answer::Refused { why, lock: None } => write!(f, "refused {why}"),
            Answer::Refused { why, lock: Some(lock) } => write!(f, "refused {why} {lock}"),
        }
    }
}

impl fmt::Display for Answered<'_> {
    fn fmt(&self, f: &mut fmt::Formatter<'_>) -> fmt::Result {
        write!(f, "{} {}", self.client, self.answer)
    }
}

impl<'a> Answered<'a> {
    /// The answer in a line, without its end.
    pub fn parse(line: &'a str) -> Result<Answered<'a>, NotALine> {
        let mut words = Words::of(line);
        let client = decimal(words.word()?)?;
        Ok(Answered { client, answer: Answer::parse(words)? })
    }
}

impl<'a> Answer<'a> {
    fn parse(mut words: Words<'a>) -> Result<Answer<'a>, NotALine> {
        let word = words.word()?;
        if word == "refused" {
            let why = Refusal::parse(words.word()?)?;
            return Ok(Answer::Refused { why, lock: words.last_lock()? });
        }
        let lock = words.lock()?;
        Ok(match word {
            "granted" => {
                let [token] = words.numbers()?;
                Answer::Granted { lock, token }
            }
            "waiting" => {
                let [before] = words.numbers()?;
                Answer::Waiting { lock, before }
            }
            "busy" | "released" | "cancelled" => {
                let [] = words.numbers()?;
                match word {
                    "busy" => Answer::Busy { lock },
                    "released" => Answer::Released { lock },
                    _ => Answer::Cancelled { lock },
                }
            }
            "corrupted" => {
                let [old] = words.numbers()?;
                Answer::Corrupted { lock, old }
            }
            "stats" => {
                let [machines, waiters, passes, holder, token] = words.numbers()?;
                Answer::Stats(Stats { lock, machines, waiters, passes, holder, token })
            }
            _ => return Err(NotALine::Syntax),
        })
    }
}

#[cfg(test)]
mod tests {
    use super::*;

    #[test]
    fn each_answer_is_written_and_read() {
        let stats = Stats { lock: "a", machines: 8, waiters: 2, passes: 41, holder: 7, token: 40 };
        let lines = [
            ("1 granted a 1", Answer::Granted { lock: "a", token: 1 }),
            ("1 waiting 0 5", Answer::Waiting { lock: "0", before: 5 }),
            ("1 busy gpu/2", Answer::Busy { lock: "gpu/2" }),
            ("1 released a", Answer::Released { lock: "a" }),
            ("1 cancelled a", Answer::Cancelled { lock: "a" }),
            ("1 corrupted a 3", Answer::Corrupted { lock: "a", old: 3 }),
            ("1 stats a 8 2 41 7 40", Answer::Stats(stats)),
            ("1 refused syntax", Answer::Refused { why: Refusal::Syntax, lock: None }),
            ("1 refused lock b", Answer::Refused { why: Refusal::Lock, lock: Some("b") }),
            ("1 refused names order/4711", Answer::Refused { why: Refusal::Names, lock: Some("order/4711") }),
            ("1 refused past 7", Answer::Refused { why: Refusal::Other("past"), lock: Some("7") }),
        ];
        for (line, answer) in lines {
            let answered = Answered { client: 1, answer };
            assert_eq!(answered.to_string(), line);
            assert_eq!(Answered::parse(line), Ok(answered));
        }
    }

    #[test]
    fn each_reason_is_its_word() {
        for (word, why) in Refusal::NAMED {
            assert_eq!(why.word(), word);
            assert_eq!(Refusal::parse(word), Ok(why));
        }
    }

    #[test]
    fn other_texts_are_no_answers() {
        for line in [
            "",
            "granted a 1",
            "1 granted a",
            "1 granted a 1 2",
            "1 granted é 1",
            "1 told a",
            "1 refused",
            "1 refused A",
            "1 refused a 1 2",
        ] {
            assert_eq!(Answered::parse(line), Err(NotALine::Syntax), "{line:?}");
        }
    }
}
