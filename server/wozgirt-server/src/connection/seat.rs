//! The session of a connection.

use std::time::{Duration, Instant};
use wozgirt_engine::Client;

/// How long a session that holds nothing and waits for nothing is kept after an answer, for a client that comes back and asks again.
const LONGEST_ANSWER: Duration = Duration::from_secs(10);

/// The session of a connection.
#[derive(Debug)]
pub struct Seat {
    /// The word by which the client is known.
    pub key: u64,
    /// Whether the client gave a key, and gives numbers.
    pub is_keyed: bool,
    /// The last number that the server gave.
    pub last: u64,
    /// Whether the client has left, and said nothing since.
    pub has_left: bool,
    /// The number of the session, where no log gives one.
    pub session: Option<Client>,
    /// Whether the session is over when its client closes the connection.
    pub is_attached: bool,
    /// When the client was answered last.
    pub answered: Instant,
}

impl Seat {
    /// The seat of a client that gives its key now.
    pub fn keyed(key: u64, session: Option<Client>, is_attached: bool, now: Instant) -> Seat {
        Seat { key, is_keyed: true, last: 0, has_left: false, session, is_attached, answered: now }
    }

    /// That of one for which the server has drawn a key.
    pub fn drawn(key: u64, now: Instant) -> Seat {
        Seat { key, is_keyed: false, last: 0, has_left: true, session: None, is_attached: false, answered: now }
    }

    /// Until when a session that has nothing but an answer is of use to its client, which may not have heard that.
    pub fn is_wanted_until(&self) -> Instant {
        self.answered + LONGEST_ANSWER
    }
}
