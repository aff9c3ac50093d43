//! What waits for an answer.

use crate::status::Listing;
use wozgirt_engine::{Client, Input, Lock, Token};

/// A line that has its place among the answers.
#[derive(Debug)]
pub enum Pending {
    /// The engine answers it.
    Asked(Input),
    /// A leave, which the engine does not answer; another input after it shows when it is done.
    Left,
    /// An operator, this client, ends its hold of a lock with a token: a release that it has not asked for itself.
    Ended(Client, Lock, Token),
    /// It waited for the lock, and the rules forbid that by now: a cancel that it has not asked for itself.
    Withdrawn(Lock),
    /// An operator waits for the end of a hold that it has asked for.
    Ending,
    /// The same, with their numbers, where the log says what the engine is asked.
    Numbered(u64, Input),
    Leaving(u64),
    /// Its session begins when the log says so, or when what was asked before for it is answered.
    Opening,
    /// The server has answered it, and sends that when all before it is answered.
    Told(Vec<u8>),
    /// The server lists all locks, as much at a time as there is room for; until that is done, it takes no other line.
    Listing(Listing),
}

impl Pending {
    /// Whether the engine answers it with a line of its own.
    pub fn is_asked(&self) -> bool {
        matches!(self, Pending::Asked(_) | Pending::Left | Pending::Ended(..) | Pending::Withdrawn(_))
    }

    /// The hold that an operator waits to end, if this is its end.
    pub fn ended(&self) -> Option<(Client, Lock, Token)> {
        match self {
            Pending::Ended(operator, lock, token) => Some((*operator, lock.clone(), *token)),
            _ => None,
        }
    }
}
